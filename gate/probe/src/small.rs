//! A type with an invariant, and a trait with a contract.
ghost use Rattle.std.specs.Prelude.{◌≡◌, ◌≤◌};

use std::marker::Model;

/// What has a number.
pub trait Numbered {
    ghost use Rattle.std.specs.Prelude.{◌≡◌, ℕ};

    /// The number, as the definitions say it.
    ghost number_of: { Self → ℕ };

    /// The number.
    fn number(&self) -> u8
        ensures { result ≡ number_of self.now };
}

/// A number that is 100 at most.
#[derive(Clone, Copy)]
pub struct Small {
    number: u8,
}

impl Model for Small {
    ghost use Rattle.std.specs.Prelude.{ℕ, ◌≤◌};

    ghost Value = { ℕ };

    ghost view = { λ s. s.number };

    ghost invariant = { λ s. s.number ≤ 100 };

    ghost inverse = { λ n. record { number = n } };
}

impl Small {
    /// The number where it is small, and else 0.
    pub fn new(number: u8) -> Small {
        let number = if number < 100 { number } else { 0 };
        Small { number }
    }
}

impl Numbered for Small {
    ghost number_of = { λ s. s };

    fn number(&self) -> u8 {
        self.number
    }
}
