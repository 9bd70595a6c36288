// Inputs compared, case by case, and what was met on the way. A case passes when it has inputs and the two agree on
// all of them.
use crate::verdicts::Verdicts;

pub struct Tally<Reached> {
    pub reached: Reached,
    pub inputs: u64,
    wrong: u64,
    pub verdicts: Verdicts,
}

impl<Reached> Tally<Reached> {
    pub fn new(reached: Reached) -> Self {
        Tally { reached, inputs: 0, wrong: 0, verdicts: Verdicts::default() }
    }

    pub fn compared(&mut self, same: bool, what: impl FnOnce() -> String) {
        self.inputs += 1;
        if !same {
            self.wrong += 1;
            if self.wrong <= 5 {
                println!("{}", what());
            }
        }
    }

    pub fn case(&mut self, name: &str, run: impl FnOnce(&mut Self)) {
        let (inputs, wrong) = (self.inputs, self.wrong);
        run(self);
        println!("{name}: {} compared", self.inputs - inputs);
        self.verdicts.check(name, self.wrong == wrong && self.inputs > inputs);
    }

    pub fn often(&mut self, what: &str, n: u64, least: u64) {
        println!("  {what}: {n}");
        self.verdicts.check(&format!("{what}: at least {least}"), n >= least);
    }
}
