//! The bands of the picture and the words of each crate, from docs/crates-in-words.txt.

pub struct Band {
    pub name: String,
    /// Its row of bands, counted from below, and its place in the row from the left.
    pub row: usize,
    pub column: usize,
    /// Its crates, and what each promises.
    pub crates: Vec<(String, String)>,
}

pub struct Bands(pub Vec<Band>);

impl Bands {
    /// Reads `[NAME]`, or `[NAME, beside NAME]` for a band that stands right of the one before it, and below it lines `CRATE: words`. '#' starts a
    /// line that is a comment.
    pub fn read(text: &str) -> Result<Bands, String> {
        let mut bands: Vec<Band> = vec![];
        for line in text.lines().filter(|line| !line.starts_with('#') && !line.trim().is_empty()) {
            if let Some(head) = line.strip_prefix('[').and_then(|rest| rest.strip_suffix(']')) {
                bands.push(Band::below(head, bands.last())?);
            } else {
                let (name, words) =
                    line.split_once(": ").ok_or(format!("'{line}': no ': ' behind a crate's name"))?;
                let band =
                    bands.last_mut().ok_or(format!("{name} has no band: no line [BAND] stands before it"))?;
                band.crates.push((name.to_string(), words.to_string()));
            }
        }
        Ok(Bands(bands))
    }

    /// The band and the words of each of these crates. Each has one line, and no other crate has.
    pub fn of(&self, names: &[String]) -> Result<Vec<(usize, &str)>, String> {
        let lines = || {
            self.0
                .iter()
                .enumerate()
                .flat_map(|(i, band)| band.crates.iter().map(move |(name, words)| (i, name, words)))
        };
        if let Some((_, name, _)) = lines().find(|(_, name, _)| !names.contains(name)) {
            return Err(format!("{name} is no crate of crates.txt"));
        }
        let of_one = |name: &String| {
            let mut found = lines().filter(|line| line.1 == name);
            match (found.next(), found.next()) {
                (Some((band, _, words)), None) => Ok((band, words.as_str())),
                (None, _) => Err(format!("the crate {name} has no band: give it a line below one")),
                _ => Err(format!("the crate {name} has two lines")),
            }
        };
        names.iter().map(of_one).collect()
    }

    /// How many bands a row has.
    pub fn columns(&self, row: usize) -> usize {
        self.0.iter().filter(|band| band.row == row).count()
    }

    /// The part of its row's width that a band's crates take.
    pub fn share(&self, band: usize) -> f64 {
        let row = self.0.iter().filter(|other| other.row == self.0[band].row);
        self.0[band].crates.len() as f64 / row.map(|other| other.crates.len()).sum::<usize>() as f64
    }
}

impl Band {
    fn below(head: &str, last: Option<&Band>) -> Result<Band, String> {
        let (name, row, column) = match (head.split_once(", beside "), last) {
            (None, last) => (head, last.map_or(0, |band| band.row + 1), 0),
            (Some((name, other)), Some(band)) if band.name == other => (name, band.row, band.column + 1),
            _ => return Err(format!("[{head}]: it is not the band before that it stands beside")),
        };
        Ok(Band { name: name.to_string(), row, column, crates: vec![] })
    }
}

#[cfg(test)]
mod tests {
    use super::*;

    const TEXT: &str = "# words\n[low]\na: one\n\n[left]\nb: two\nc: three\n[right, beside left]\nd: four\n[high]\ne: five\n";

    #[test]
    fn reads() {
        let bands = Bands::read(TEXT).unwrap();
        let places: Vec<_> = bands.0.iter().map(|band| (band.name.as_str(), band.row, band.column)).collect();
        assert_eq!(places, [("low", 0, 0), ("left", 1, 0), ("right", 1, 1), ("high", 2, 0)]);
        assert_eq!((bands.columns(0), bands.columns(1)), (1, 2));
        let names = ["e", "d", "a", "b", "c"].map(String::from);
        assert_eq!(bands.of(&names).unwrap()[..3], [(3, "five"), (2, "four"), (0, "one")]);
        assert!(Bands::read("a: one\n[low]").is_err() && Bands::read("[low]\na one").is_err());
        assert!(Bands::read("[low]\n[high, beside middle]").is_err());
    }

    #[test]
    fn every_crate_has_one_band() {
        let names = ["a", "b", "c", "d", "e"].map(String::from);
        let error = |text: &str, names: &[String]| Bands::read(text).unwrap().of(names).unwrap_err();
        assert!(error(TEXT, &names[..4]).contains("e is no crate"));
        assert!(error(&TEXT.replace("d: four\n", ""), &names).contains("the crate d has no band"));
        assert!(error(&format!("{TEXT}a: again\n"), &names).contains("a has two lines"));
    }
}
