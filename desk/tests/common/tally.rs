//! How often each class of cases occurred, so that a comparison can show what
//! it compared.

use std::collections::BTreeMap;

/// The classes that have to occur, under their headings.
pub type Classes = [(&'static str, &'static [&'static str])];

/// Counts by heading and class.
#[derive(Debug, Default)]
pub struct Tally(BTreeMap<(&'static str, &'static str), u64>);

impl Tally {
    pub fn count(&mut self, heading: &'static str, class: &'static str) {
        *self.0.entry((heading, class)).or_default() += 1;
    }

    /// Takes in the counts of another part of a comparison.
    pub fn join(&mut self, other: Tally) {
        for (class, count) in other.0 {
            *self.0.entry(class).or_default() += count;
        }
    }

    fn of(&self, heading: &'static str, class: &'static str) -> u64 {
        self.0.get(&(heading, class)).copied().unwrap_or(0)
    }

    /// The counts, a line for each heading.
    pub fn table(&self, classes: &Classes) -> String {
        let mut text = String::new();
        for (heading, names) in classes {
            text += &format!("{heading}:");
            for class in *names {
                text += &format!("  {class} {}", self.of(heading, class));
            }
            text += "\n";
        }
        text
    }

    /// Every class occurred so often at least, and no other did.
    pub fn check(&self, classes: &Classes, least: u64) {
        for (heading, names) in classes {
            for class in *names {
                let count = self.of(heading, class);
                assert!(count >= least, "{heading} {class}: {count} cases");
            }
        }
        let known = |(heading, class): &(&'static str, &'static str)| {
            let under = classes.iter().find(|(known, _)| known == heading);
            under.is_some_and(|(_, names)| names.contains(class))
        };
        let other = self.0.keys().find(|class| !known(class));
        assert_eq!(other, None, "a class without a heading");
    }
}
