/* The list of runs, in words. */
#include "trials.h"

const struct obligation obligations[OBLIGATIONS] = {
    {"1 e is 0", "A fresh statement has e = 0."},
    {"2 r", "r is picked after x and root are fixed, and not by the registrar; or it is drawn from them, and compared."},
    {"3 challenge", "The challenge is picked after items and quotient are fixed, and not by the registrar; or it is drawn from them."},
    {"4 positions", "At least k different positions, the same k in every fold of a list, and not picked by the registrar."},
    {"5 same bytes", "Verify and decide get the same new item and the same sizes, and decide gets the agreed circuit and points."},
    {"6 both verdicts", "The verdicts of verify and of decide are both 0."},
    {"7 second layer", "What is folded again is, byte by byte, the new item of a fold that was verified, and both folds open the same k positions."},
};

const struct trial trials[TRIALS] = {
    {1, e_of_a_fold, "4 × 5 = 21 is handed in with e = p - 1", "e = 0",
     "The circuit says w0 × w1 = x1. The value of 4 × 5 = 21 is 20 - 21 = p - 1. With e = p - 1 the item holds, so\n"
     "fold takes it with 2 × 3 = 6, and the rest follows.",
     "The clearing house takes no item whose e is not 0. With e = 0 fold refuses. The registrar folds by hand and\n"
     "keeps the quotient from before: that passes verify, and decide refuses."},
    {2, r_of_the_registrar, "row 1 is false, and the registrar picks r = 0", "r = 7",
     "Row 0 says 2 × 3 = 6, row 1 says 2 × 2 = 5. Their weights are 1 - r and r. With r = 0 row 1 does not count,\n"
     "so cast takes the claim, and the rest follows.",
     "With r = 7 cast refuses. The registrar writes the item and folds by hand: decide refuses."},
    {2, r_known_before, "both rows are false, and r = 7 is known before x is fixed", "r = 11",
     "With r = 7 the weights are -6 and 7. The registrar picks x such that row 0 is wrong by 7 and row 1 by 6: the\n"
     "value is -6 × 7 + 7 × 6 = 0, so cast takes the claim.",
     "With r = 11, picked when x and root are fixed, the value is -10 × 7 + 11 × 6 = -4."},
    {2, r_not_compared, "row 1 is false, and nobody compares r = 0 with the drawn r", "the drawn r",
     "The item of the first run. The calls take the r that stands in an item, drawn or not.",
     "The clearing house draws r from the item's root and x, and takes no item with another one. With the drawn r cast\n"
     "refuses. The registrar writes the item and folds by hand: decide refuses."},
    {3, challenge_known_before, "the quotient is made for a challenge that is known", "another challenge",
     "2 × 3 = 6 and 4 × 5 = 21, both with e = 0. Fold would refuse. The registrar folds by hand, with the quotient\n"
     "with which the new item holds at the known challenge. Each of the challenges has its own quotient.",
     "The clearing house picks another challenge once the quotient is fixed. The fold passes verify, and decide\n"
     "refuses. In folds that open the same k positions, one quotient can pass at (l - 1)(m + 2) = 2 challenges at most."},
    {3, challenge_not_drawn, "the challenge is lent by whoever made the quotient for it", "the drawn one",
     "As before. The registrar says which challenge was drawn, and nobody draws it again.",
     "The clearing house draws the challenge from items and quotient, and it is another one. What this leaves: the\n"
     "registrar can try some p / 2 quotients, of which one has a drawn challenge at which it passes."},
    {4, position_known_before, "one position, known before the new item is fixed", "two different ones",
     "k = 2. The items are the same, and the quotient is fixed before the challenge. The registrar changes the new\n"
     "witness in a way that the known position does not show, such that the new item holds. By how much is a\n"
     "quadratic equation modulo p, which has a solution at about every second challenge.",
     "Witnesses of two numbers whose codewords agree at two different positions are equal: verify refuses the\n"
     "changed one. Where there is no solution the new witness is the combination, and decide refuses."},
    {4, position_twice, "the same position twice, known before", "two different ones",
     "As before: t = 2 is k, but the positions are not different.", "As before."},
    {4, position_too_few, "one position, picked after", "two different ones",
     "As before, but the registrar has to guess the position. There are 4k = 8.", "As before."},
    {4, position_not_drawn, "one position, lent by the registrar", "drawn ones",
     "The challenge is drawn from items and quotient, and each of the 2,000 quotients has its own. The rest is as in the\n"
     "first run.",
     "4k = 8 positions are drawn from seed, challenge and new root, and at least two of them are different each time."},
    {4, position_tried, "one position is drawn, and the registrar tries until it suits", "two different ones",
     "As before, but the registrar changes the new witness such that position 0 does not show it, and draws. Where\n"
     "another position is drawn, it does the same for position 1, and so on, and then goes on to the next quotient,\n"
     "with another challenge. The position suits at about one try in eight.",
     "Of 8 positions that are drawn from the same root at least two are different. However many new witnesses are tried,\n"
     "verify refuses all but the combination."},
    {4, positions_not_counted, "two are drawn and not counted, and it tries until both suit", "two different ones",
     "As before, until both positions are the one that does not show the change: at about one try in 64. t = 2 is k, but\n"
     "the positions are not different.",
     "As before."},
    {4, positions_of_each_fold, "each fold opens two others, and one root is over no codeword", "the same two",
     "The circuit says w0 × w0 = x1. 2 × 2 = 4 is true. x1 = 11 is false with every witness: 11 is no square modulo p. The\n"
     "registrar makes its root over the values 1 to 8, which are no codeword, and fixes one quotient. The values at two\n"
     "positions are those of one witness, and with it the fold holds at one challenge. Each of the 28 pairs of positions\n"
     "has its own: 28 different challenges, where the bound for one pair is (l - 1)(m + 2) = 2.",
     "Items, quotient and challenges are the same, and every fold opens positions 0 and 1. They leave one new witness. It\n"
     "passes verify, and decide refuses it at every challenge but the one for 0 and 1."},
    {5, other_item_decided, "another item is decided, with e and x of the verified one", "the same item",
     "2 × 3 = 6 and 4 × 5 = 21, folded by hand: that passes verify. The item that is decided has e and x of the new\n"
     "item, but a root and a witness of its own, with which it holds.",
     "The new item that was verified is decided."},
    {5, other_circuit, "the circuit comes from the registrar", "the agreed circuit",
     "The same items. The registrar's circuit has no entries: it says 0 = 0 of every item.", "Decided with w0 × w1 = x1."},
    {5, other_sizes, "decide's sizes come from the registrar", "the agreed sizes",
     "The circuit says w0 × w1 = x2, x0 is 1 as in every item, and the registrar picks x1 = 1: m = 0, n = 3. With\n"
     "m = 1, n = 2 an item has as many bytes, x0 is read as r, and x1 as the first input, which is 1 as it must be.\n"
     "With r = 1 row 0 has the weight 0.",
     "Decided with m = 0, n = 3."},
    {5, other_points, "decide's points come from the registrar", "the agreed points",
     "The new item that was verified is decided, with a witness w0, 1 with which it holds. The codeword of w0, 1 has\n"
     "w0 + point i at position i. The registrar picks each point such that this is the value in the tree under the\n"
     "new item's root.",
     "Over the agreed points that root is not the one of w0, 1."},
    {6, not_decided, "the fold of 4 × 5 = 21 is verified only", "decided too",
     "2 × 3 = 6 and 4 × 5 = 21, folded by hand. Verify sees no circuit and no witness.", "Decide refuses the new item."},
    {6, not_verified, "the new item is decided only", "verified too",
     "The new item has the e and x that the fold of 2 × 3 = 6 and 4 × 5 = 21 gives. Its witness is one with which it\n"
     "holds, and not the combination.",
     "Verify refuses: the opened values are not the combination."},
    {7, other_item_above, "another item is folded again, with e and x of the verified one", "the same item",
     "The fold of 2 × 3 = 6 and 4 × 5 = 21 passes verify. Its new item is not decided. Above, an item with e and x\n"
     "of the new item, but a root of its own, is folded with 3 × 7 = 21. It holds, so all verdicts above are 0.",
     "The clearing house compares the bytes, and takes the new item alone. Fold refuses it. Folded by hand it\n"
     "passes verify, and decide refuses."},
    {7, lower_not_verified, "the lower fold is not verified", "verified too",
     "The lower fold's new item is that other item, and is folded with 3 × 7 = 21.", "Verify refuses the lower fold."},
    {7, positions_of_each_layer, "each layer opens two others, and one root is over no codeword", "the same two",
     "The lower fold opens positions 0 and 1 and passes verify. Its new item is folded with 3 × 7 = 21, byte by byte. At\n"
     "0 and 1 its root is over the values of the combination, and at the others over those of a witness with which it\n"
     "holds. The upper fold opens positions 2 and 3, which show that witness.",
     "The upper fold opens positions 0 and 1 too. They show the combination: that passes verify, and decide refuses."},
};
