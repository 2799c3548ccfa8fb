//! Names the calls whose cases are drawn.

use super::{blocks, cases, maps};
use crate::floats::Stream;
use crate::random::Random;

#[derive(Clone, Copy)]
pub enum Call {
    Polynomials,
    Derivatives,
    Operators,
    ToBlock,
    ToChild,
    Targets,
    Sources,
    Coefficients,
    Gradients,
    Argmax,
    Cutoff,
    Cross,
    Restart,
    Spoilt,
    Ratios,
    Air,
    Coordinates,
    GradientsAnywhere,
    SecondDerivatives,
    Curvature,
}

/// Each call, the name that its cases are counted under, and what the count is divided by for it.
///
/// A call that is asked in two ways has half of the cases for each, and the coefficients half of that,
/// since the program clears megabytes before each of them; and so have the ratios, which are made of them.
///
/// The text scales points and finds their coefficients in one call, and the library in two. Points in the
/// cell go through both, and coordinates anywhere through the second alone.
///
/// A new call stands last, so that a seed still draws the same for the others.
pub const CALLS: [(Call, &str, usize); 20] = [
    (Call::Polynomials, "polynomials", 2),
    (Call::Derivatives, "polynomials with derivatives", 2),
    (Call::Operators, "operators", 1),
    (Call::ToBlock, "transfers to a block", 2),
    (Call::ToChild, "transfers to a child", 2),
    (Call::Targets, "target points", 1),
    (Call::Sources, "source points", 1),
    (Call::Coefficients, "coefficients", 4),
    (Call::Gradients, "coefficients with gradients", 4),
    (Call::Argmax, "argmax", 1),
    (Call::Cutoff, "cutoff", 1),
    (Call::Cross, "cross approximation", 1),
    (Call::Restart, "restart mode, the same blocks", 1),
    (Call::Spoilt, "restart mode, spoilt rows", 1),
    (Call::Ratios, "ratios, gases of any floats", 4),
    (Call::Air, "ratios, air about the floor", 4),
    (Call::Coordinates, "coefficients, coordinates anywhere", 4),
    (
        Call::GradientsAnywhere,
        "coefficients with gradients, coordinates anywhere",
        4,
    ),
    (Call::SecondDerivatives, "second derivatives", 2),
    (Call::Curvature, "curvature, coordinates anywhere", 4),
];

impl Call {
    /// Whether it is asked for what was drawn for the call before it.
    pub fn repeats(self) -> bool {
        matches!(self, Self::Restart)
    }

    /// Draws a case, and adds it with the answer of the text, or of our own rule: in restart mode, for
    /// ratios, and for second derivatives and curvature.
    pub fn ask(self, random: &mut Random, stream: &mut Stream) -> Result<(), String> {
        match self {
            Self::Polynomials => cases::polynomials(random, stream, false),
            Self::Derivatives => cases::polynomials(random, stream, true),
            Self::Operators => cases::operators(random, stream),
            Self::ToBlock => cases::transfer(random, stream, false),
            Self::ToChild => cases::transfer(random, stream, true),
            Self::Targets => cases::targets(random, stream),
            Self::Sources => cases::sources(random, stream),
            Self::Coefficients => cases::coefficients(random, stream, false),
            Self::Gradients => cases::coefficients(random, stream, true),
            Self::Argmax => cases::argmax(random, stream),
            Self::Cutoff => cases::cutoff(random, stream),
            Self::Cross => blocks::ask(random, stream)?,
            Self::Restart => blocks::ask_restart(random, stream)?,
            Self::Spoilt => blocks::ask_spoilt(random, stream)?,
            Self::Ratios => maps::any(random, stream),
            Self::Air => maps::air(random, stream),
            Self::Coordinates => cases::coordinates(random, stream, false),
            Self::GradientsAnywhere => cases::coordinates(random, stream, true),
            Self::SecondDerivatives => cases::second_derivatives(random, stream),
            Self::Curvature => cases::curvature(random, stream),
        }
        Ok(())
    }
}
