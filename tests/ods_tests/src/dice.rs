//! Numbers that look random, for tests that say their seed.
ghost use Rattle.std.specs.Prelude.{◌<◌};

/// Numbers that look random, from a seed.
#[derive(Drop)]
pub struct Dice(u64);

impl Dice {
    /// Those that begin with this seed.
    pub fn from(seed: u64) -> Dice {
        Dice(seed)
    }

    /// The next number, below `sides`.
    pub fn roll(&mut self, sides: u64) -> u64
        requires { 0 < sides }
        ensures { result < sides }
    {
        self.0 = self.0.wrapping_mul(6_364_136_223_846_793_005);
        self.0 = self.0.wrapping_add(1_442_695_040_888_963_407);
        (self.0 >> 33) % sides
    }
}
