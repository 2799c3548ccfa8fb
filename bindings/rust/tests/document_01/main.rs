//! Holds every call to the rules of document 01 and of the requests that followed it, which `rule`
//! writes anew: plain, slow and obvious. Answers and lent buffers are compared bit for bit, where
//! any NaN equals any NaN; after a refusal every lent buffer must have the bits that it came with.
//! Cases are drawn from fixed seeds, or are all that there are.

mod blocks;
mod chebyshev;
mod choices;
mod coefficients;
mod cross;
mod curvature;
mod distances;
mod draw;
mod exchange;
mod fixed;
mod held;
mod points;
mod ratios;
mod roots;
mod rule;
mod transfer;
mod turn;
