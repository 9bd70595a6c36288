// What held and what did not; the last line counts both.
#[derive(Default)]
pub struct Verdicts {
    passed: u64,
    failed: u64,
}

impl Verdicts {
    pub fn check(&mut self, name: &str, holds: bool) {
        if holds {
            self.passed += 1;
        } else {
            println!("{name}: does not hold");
            self.failed += 1;
        }
    }

    pub fn end(&self) -> ! {
        println!("{} passed, {} failed", self.passed, self.failed);
        std::process::exit((self.failed != 0) as i32);
    }
}
