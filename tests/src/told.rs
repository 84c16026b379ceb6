//! Programs that are wrong, each in one way, and how many cases tell them from the right one.

/// What a wrong program is called, and which of the right one's steps it has changed.
pub type Wrong<Steps> = (&'static str, fn(&mut Steps));

/// How many cases tell each wrong program from the right one.
pub struct Told<Steps: 'static> {
    right: Steps,
    wrong: &'static [Wrong<Steps>],
    times: Vec<usize>,
}

impl<Steps: Copy> Told<Steps> {
    pub fn by_nothing(right: Steps, wrong: &'static [Wrong<Steps>]) -> Told<Steps> {
        Told { right, wrong, times: vec![0; wrong.len()] }
    }

    /// One case more, with what is to come of it, by what comes of it by the steps of a program. The
    /// steps of the right one are right.
    pub fn by<Outcome: PartialEq>(
        &mut self,
        expected: &Outcome,
        outcome: impl Fn(&Steps) -> Outcome,
        case: &dyn Fn() -> String,
    ) {
        assert!(outcome(&self.right) == *expected, "{}", case());
        for ((_, change), times) in self.wrong.iter().zip(&mut self.times) {
            let mut steps = self.right;
            change(&mut steps);
            *times += (outcome(&steps) != *expected) as usize;
        }
    }

    /// More cases than this tell each of them.
    pub fn expect_over(&self, least: usize) {
        let names = self.wrong.iter().map(|(name, _)| name);
        let told: Vec<_> = names.zip(&self.times).collect();
        assert!(self.times.iter().all(|&times| times > least), "{told:?}");
    }
}
