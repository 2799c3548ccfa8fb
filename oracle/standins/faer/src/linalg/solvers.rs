//! Diagonal matrices, and the decompositions, which only have to compile.

use crate::{ColRef, Mat, MatRef};

/// A diagonal matrix, for reading.
#[derive(Clone, Copy, Debug)]
pub struct DiagRef<'a, T> {
    entries: ColRef<'a, T>,
}

impl<'a, T> DiagRef<'a, T> {
    pub(crate) fn new(entries: ColRef<'a, T>) -> Self {
        Self { entries }
    }

    pub fn column_vector(self) -> ColRef<'a, T> {
        self.entries
    }
}

/// What a failed decomposition would return.
#[derive(Debug)]
pub struct SvdError;

/// The singular value decomposition.
#[derive(Debug)]
pub struct Svd {
    left: Mat<f64>,
    values: Vec<f64>,
    right: Mat<f64>,
}

// The names are those of the real crate.
#[allow(non_snake_case)]
impl Svd {
    pub fn U(&self) -> MatRef<'_, f64> {
        self.left.as_ref()
    }

    pub fn S(&self) -> DiagRef<'_, f64> {
        ColRef::from_slice(&self.values).as_diagonal()
    }

    pub fn V(&self) -> MatRef<'_, f64> {
        self.right.as_ref()
    }
}

/// The QR decomposition.
#[derive(Debug)]
pub struct Qr {
    basis: Mat<f64>,
    triangle: Mat<f64>,
}

// The names are those of the real crate.
#[allow(non_snake_case)]
impl Qr {
    pub fn compute_thin_Q(&self) -> Mat<f64> {
        self.basis.clone()
    }

    pub fn thin_R(&self) -> MatRef<'_, f64> {
        self.triangle.as_ref()
    }
}

impl Mat<f64> {
    pub fn svd(&self) -> Result<Svd, SvdError> {
        unimplemented!("the stand-in for faer has no singular value decomposition");
    }

    pub fn qr(&self) -> Qr {
        unimplemented!("the stand-in for faer has no QR decomposition");
    }
}
