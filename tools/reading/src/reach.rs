//! What a theorem or a contract rests on, in reading order.

use crate::{free::Walk, rattle, world::Target, world::World};
use std::collections::{BTreeMap, BTreeSet};

/// A declaration by the rank of its file and its place in the file: the reading order.
pub type Place = (usize, usize);

/// The sections of the page and their files, in reading order.
pub struct Order {
    pub sections: Vec<(String, Vec<usize>)>,
    pub files: Vec<String>,
}

impl Order {
    /// Reads lines `SECTION: FILE FILE ..`; a line that starts with a space continues the one before.
    pub fn read(text: &str) -> Result<Order, String> {
        let mut order = Order { sections: vec![], files: vec![] };
        for line in text.lines().filter(|line| !line.starts_with('#') && !line.trim().is_empty()) {
            let files = match line.split_once(": ") {
                Some((title, files)) => {
                    order.sections.push((title.to_string(), vec![]));
                    files
                }
                None => line,
            };
            let section = order.sections.last_mut().ok_or("the first line names no section")?;
            for file in files.split_whitespace() {
                section.1.push(order.files.len());
                order.files.push(file.to_string());
            }
        }
        Ok(order)
    }

    fn rank(&self, key: &str) -> Result<usize, String> {
        self.files
            .iter()
            .position(|file| file == key)
            .ok_or(format!("no section of the reading list has {key}"))
    }
}

#[derive(Default, Clone)]
pub struct Reached {
    pub places: BTreeSet<Place>,
    pub libraries: BTreeSet<(String, String)>,
}

/// A theorem or an exported call, with all that it rests on.
pub struct Root {
    pub name: String,
    pub reached: Reached,
}

pub struct Reader<'a> {
    pub world: &'a World,
    pub order: &'a Order,
    /// What each declaration rests on directly.
    pub direct: BTreeMap<Place, Vec<Target>>,
}

impl<'a> Reader<'a> {
    pub fn new(world: &'a World, order: &'a Order) -> Self {
        Reader { world, order, direct: BTreeMap::new() }
    }

    pub fn place_of(&self, key: &str, name: &str) -> Result<Place, String> {
        Ok((self.order.rank(key)?, self.world.place(key, name)?))
    }

    fn direct_of(&mut self, place: Place) -> Result<Vec<Target>, String> {
        if let Some(found) = self.direct.get(&place) {
            return Ok(found.clone());
        }
        let targets = self.world.rests_on(&self.order.files[place.0], place.1)?;
        self.direct.insert(place, targets.clone());
        Ok(targets)
    }

    /// Follows the names from some targets on. A declaration must stand behind those that it names.
    pub fn follow(&mut self, from: Vec<Target>) -> Result<Reached, String> {
        let mut reached = Reached::default();
        let mut open: Vec<(Target, Option<Place>)> = from.into_iter().map(|target| (target, None)).collect();
        while let Some((target, user)) = open.pop() {
            let (key, name) = match target {
                Target::Library(library, name) => {
                    reached.libraries.insert((library, name));
                    continue;
                }
                Target::Declared(key, name) => (key, name),
            };
            let place = self.place_of(&key, &name)?;
            if user.is_some_and(|user| user <= place) {
                return Err(format!("{key}: {name} stands behind what uses it"));
            }
            if reached.places.insert(place) {
                open.extend(self.direct_of(place)?.into_iter().map(|next| (next, Some(place))));
            }
        }
        Ok(reached)
    }

    /// What the contract of an exported function rests on.
    pub fn contract(&mut self, key: &str, function: &rattle::Exported) -> Result<Reached, String> {
        let world = self.world;
        let constructor = |word: &str| world.is_constructor(key, word);
        let mut walk = Walk::new(&constructor);
        walk.bind(&function.parameters);
        walk.bind(&["result".to_string()]);
        for clause in function.contract() {
            walk.walk(&clause);
        }
        let targets = walk.free.iter().map(|word| world.resolve(key, word)).collect::<Result<Vec<_>, _>>()?;
        match targets.is_empty() {
            true => Err(format!("{}: its contract names nothing", function.name)),
            false => self.follow(targets),
        }
    }
}
