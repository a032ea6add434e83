//! What is asked in the benchmarks where logins share persons. Lists, labels, rows and requests are in no order, as rooms have them.

use crate::inputs::{shuffle, Input, Random};

impl Input {
    /// So many logins to a person, dealt out in no order among all the persons that there could be.
    fn sharing_persons(mut self, logins: usize) -> Input {
        let mut random = Random(43);
        let [mut dealt, mut names]: [Vec<usize>; 2] = [(0..self.logins).collect(), (0..self.logins).collect()];
        shuffle(&mut random, &mut dealt);
        shuffle(&mut random, &mut names);
        self.persons = dealt.iter().map(|place| names[place / logins] as u16).collect();
        self
    }

    /// The last login's entry is P.
    fn spoilt(mut self) -> Input {
        *self.persons.last_mut().expect("there are logins") = self.logins as u16;
        self
    }
}

/// Requests of 128 logins by classes, each with whether the row is put back after it.
pub fn requests() -> Vec<(String, Input, bool)> {
    let mut random = Random(47);
    let of = |folders: usize| {
        let mut clients: Vec<usize> = (0..folders).map(|folder| 1 + folder % (folders / 2).min(64)).collect();
        shuffle(&mut random, &mut clients);
        let house = |logins: usize| Input::new(128, folders, |folder| clients[folder]).sharing_persons(logins);
        [
            (
                format!("{folders} folders, two logins to a person: read, blank row"),
                house(2).asking(100, folders / 2, 1),
                true,
            ),
            ("… a thousand of all sorts, after a history".to_owned(), house(2).after_a_history(), true),
            ("… all logins one person's, a thousand of all sorts".to_owned(), house(128).after_a_history(), true),
            ("… each its own person, a thousand of all sorts".to_owned(), house(1).after_a_history(), true),
            ("… refused with 10 for the last entry".to_owned(), house(2).spoilt().asking(100, 0, 1), false),
        ]
    };
    [512, 64, 16, 8].into_iter().flat_map(of).collect()
}
