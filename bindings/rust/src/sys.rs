//! The calls of libbbfmm.a as include/bbfmm.h declares them, each behind a safe function of slices.
//! All `unsafe` stands here.
//!
//! What the header asks of a caller, and why each call below meets it:
//!
//! - A slice crosses as two arguments, the pointer to its first entry and its length. That of a
//!   Rust slice is never null, also where it is empty, is aligned, and has so many entries behind
//!   it, which may be read, and written through `&mut`.
//! - No two buffers overlap of which one is written: the borrow rules shut that out. Two that are
//!   only read may be one and the same, which changes nothing, since no call writes through them.
//! - A `bool` is true or false.
//! - The library keeps no pointer and no state, so a borrow ends with its call, and calls on
//!   several threads do not meet.
//! - Any values of the arguments are allowed: what lies outside the limits is refused.
#![allow(unsafe_code)]

use crate::aca::Buffers;
use crate::coefficients::Gradients;
use crate::curvature::Curvatures;
use crate::ratios::{Cell, Gases};

unsafe extern "C" {
    fn bbfmm_follow_node(
        dimension: usize,
        order: usize,
        x: i32,
        y: i32,
        z: i32,
        node: usize,
        answer: *mut usize,
        answer_length: usize,
    ) -> u8;

    fn bbfmm_look_up(
        dimension: usize,
        x: i32,
        y: i32,
        z: i32,
        answer: *mut usize,
        answer_length: usize,
    ) -> u8;

    fn bbfmm_reference_vector(
        dimension: usize,
        number: usize,
        vector: *mut i32,
        vector_length: usize,
    ) -> u8;

    fn bbfmm_combined_permutation(
        dimension: usize,
        order: usize,
        case_number: usize,
        table: *mut u16,
        table_length: usize,
    ) -> u8;

    fn bbfmm_inverse_permutation(
        dimension: usize,
        order: usize,
        case_number: usize,
        table: *mut u16,
        table_length: usize,
    ) -> u8;

    fn bbfmm_generate_chebyshev_nodes(order: usize, nodes: *mut f64, nodes_length: usize) -> u8;

    fn bbfmm_generate_node_set(
        order: usize,
        set: usize,
        nodes: *mut f64,
        nodes_length: usize,
    ) -> u8;

    fn bbfmm_evaluate_chebyshev_polynomials(
        order: usize,
        rows: usize,
        points: *const f64,
        points_length: usize,
        with_derivatives: bool,
        tn: *mut f64,
        tn_length: usize,
        dtn: *mut f64,
        dtn_length: usize,
    ) -> u8;

    fn bbfmm_evaluate_second_derivatives(
        order: usize,
        rows: usize,
        points: *const f64,
        points_length: usize,
        tn: *mut f64,
        tn_length: usize,
        dtn: *mut f64,
        dtn_length: usize,
        ddtn: *mut f64,
        ddtn_length: usize,
    ) -> u8;

    fn bbfmm_get_m2m_transfer_operators(
        order: usize,
        nodes: *const f64,
        nodes_length: usize,
        node_polynomials: *const f64,
        node_polynomials_length: usize,
        operators: *mut f64,
        operators_length: usize,
    ) -> u8;

    fn bbfmm_apply_cheb_tensor_transfer(
        dimension: usize,
        order: usize,
        child: usize,
        transpose: bool,
        input: *const f64,
        input_length: usize,
        operators: *const f64,
        operators_length: usize,
        first: *mut f64,
        first_length: usize,
        second: *mut f64,
        second_length: usize,
    ) -> u8;

    fn bbfmm_generate_chebyshev_target_points(
        dimension: usize,
        order: usize,
        length: f64,
        nodes: *const f64,
        nodes_length: usize,
        points: *mut f64,
        points_length: usize,
    ) -> u8;

    fn bbfmm_generate_chebyshev_source_points(
        dimension: usize,
        order: usize,
        length: f64,
        reference: usize,
        nodes: *const f64,
        nodes_length: usize,
        points: *mut f64,
        points_length: usize,
    ) -> u8;

    fn bbfmm_square_root(x: f64) -> f64;

    fn bbfmm_sample_distances(
        dimension: usize,
        order: usize,
        length: f64,
        reference: usize,
        nodes: *const f64,
        nodes_length: usize,
        sources: *mut f64,
        sources_length: usize,
        targets: *mut f64,
        targets_length: usize,
        block: *mut f64,
        block_length: usize,
    ) -> u8;

    fn bbfmm_scale_points(
        dimension: usize,
        rows: usize,
        length: f64,
        centre: *const f64,
        centre_length: usize,
        points: *mut f64,
        points_length: usize,
    ) -> u8;

    fn bbfmm_get_approximation_coefficients(
        dimension: usize,
        order: usize,
        rows: usize,
        with_gradients: bool,
        length: f64,
        node_polynomials: *const f64,
        node_polynomials_length: usize,
        coordinates: *const f64,
        coordinates_length: usize,
        values: *mut f64,
        values_length: usize,
        gradients: *mut f64,
        gradients_length: usize,
        factors: *mut f64,
        factors_length: usize,
        slopes: *mut f64,
        slopes_length: usize,
    ) -> u8;

    fn bbfmm_get_curvature_coefficients(
        dimension: usize,
        order: usize,
        rows: usize,
        length: f64,
        node_polynomials: *const f64,
        node_polynomials_length: usize,
        coordinates: *const f64,
        coordinates_length: usize,
        curvatures: *mut f64,
        curvatures_length: usize,
        factors: *mut f64,
        factors_length: usize,
        slopes: *mut f64,
        slopes_length: usize,
        bends: *mut f64,
        bends_length: usize,
        room: *mut f64,
        room_length: usize,
    ) -> u8;

    fn bbfmm_graham_ratios(
        dimension: usize,
        order: usize,
        length: f64,
        rows: usize,
        floor: f64,
        centre: *const f64,
        centre_length: usize,
        node_polynomials: *const f64,
        node_polynomials_length: usize,
        points: *mut f64,
        points_length: usize,
        carbon_monoxide: *const f64,
        carbon_monoxide_length: usize,
        nitrogen: *const f64,
        nitrogen_length: usize,
        oxygen: *const f64,
        oxygen_length: usize,
        values: *mut f64,
        values_length: usize,
        factors: *mut f64,
        factors_length: usize,
        answers: *mut u8,
        answers_length: usize,
        ratios: *mut f64,
        ratios_length: usize,
    ) -> u8;

    fn bbfmm_block_size(
        text: *const u8,
        text_length: usize,
        sizes: *mut usize,
        sizes_length: usize,
    ) -> u64;

    fn bbfmm_read_block(
        text: *const u8,
        text_length: usize,
        block: *mut f64,
        block_length: usize,
        sizes: *mut usize,
        sizes_length: usize,
    ) -> u64;

    fn bbfmm_write_block(
        rows: usize,
        columns: usize,
        block: *const f64,
        block_length: usize,
        text: *mut u8,
        text_length: usize,
        written: *mut usize,
        written_length: usize,
    ) -> u64;

    fn bbfmm_argmax_masked(
        entries: *const f64,
        entries_length: usize,
        mask: *const u8,
        mask_length: usize,
        place: *mut usize,
        place_length: usize,
    ) -> u8;

    fn bbfmm_calculate_singular_values_cutoff(
        values: *const f64,
        values_length: usize,
        epsilon: f64,
        place: *mut usize,
        place_length: usize,
    ) -> u8;

    fn bbfmm_aca_partial_pivoting(
        rows: usize,
        columns: usize,
        samples: *const f64,
        samples_length: usize,
        epsilon: f64,
        restart: bool,
        u: *mut f64,
        u_length: usize,
        v: *mut f64,
        v_length: usize,
        row_list: *mut u16,
        row_list_length: usize,
        column_list: *mut u16,
        column_list_length: usize,
        row: *mut f64,
        row_length: usize,
        column: *mut f64,
        column_length: usize,
        counts: *mut usize,
        counts_length: usize,
        numbers: *mut f64,
        numbers_length: usize,
    ) -> u8;
}

pub(crate) fn look_up(dimension: usize, [x, y, z]: [i32; 3], answer: &mut [usize; 4]) -> u8 {
    // SAFETY: one slice, lent mutably, by its pointer and length.
    unsafe { bbfmm_look_up(dimension, x, y, z, answer.as_mut_ptr(), answer.len()) }
}

pub(crate) fn follow_node(
    dimension: usize,
    order: usize,
    [x, y, z]: [i32; 3],
    node: usize,
    answer: &mut [usize; 2],
) -> u8 {
    let (place, length) = (answer.as_mut_ptr(), answer.len());
    // SAFETY: one slice, lent mutably, by its pointer and length.
    unsafe { bbfmm_follow_node(dimension, order, x, y, z, node, place, length) }
}

pub(crate) fn reference_vector(dimension: usize, number: usize, vector: &mut [i32; 3]) -> u8 {
    // SAFETY: one slice, lent mutably, by its pointer and length.
    unsafe { bbfmm_reference_vector(dimension, number, vector.as_mut_ptr(), vector.len()) }
}

pub(crate) fn combined_permutation(
    dimension: usize,
    order: usize,
    case: usize,
    table: &mut [u16],
) -> u8 {
    // SAFETY: one slice, lent mutably, by its pointer and length.
    unsafe { bbfmm_combined_permutation(dimension, order, case, table.as_mut_ptr(), table.len()) }
}

pub(crate) fn inverse_permutation(
    dimension: usize,
    order: usize,
    case: usize,
    table: &mut [u16],
) -> u8 {
    // SAFETY: one slice, lent mutably, by its pointer and length.
    unsafe { bbfmm_inverse_permutation(dimension, order, case, table.as_mut_ptr(), table.len()) }
}

pub(crate) fn generate_chebyshev_nodes(order: usize, nodes: &mut [f64]) -> u8 {
    // SAFETY: one slice, lent mutably, by its pointer and length.
    unsafe { bbfmm_generate_chebyshev_nodes(order, nodes.as_mut_ptr(), nodes.len()) }
}

pub(crate) fn generate_node_set(order: usize, set: usize, nodes: &mut [f64]) -> u8 {
    // SAFETY: one slice, lent mutably, by its pointer and length.
    unsafe { bbfmm_generate_node_set(order, set, nodes.as_mut_ptr(), nodes.len()) }
}

pub(crate) fn evaluate_chebyshev_polynomials(
    order: usize,
    rows: usize,
    points: &[f64],
    with_derivatives: bool,
    tn: &mut [f64],
    dtn: &mut [f64],
) -> u8 {
    // SAFETY: three slices by their pointers and lengths. `points` is only read; `tn` and `dtn` are
    // borrowed mutably, so they overlap nothing. The bool is Rust's.
    unsafe {
        bbfmm_evaluate_chebyshev_polynomials(
            order,
            rows,
            points.as_ptr(),
            points.len(),
            with_derivatives,
            tn.as_mut_ptr(),
            tn.len(),
            dtn.as_mut_ptr(),
            dtn.len(),
        )
    }
}

pub(crate) fn evaluate_second_derivatives(
    order: usize,
    rows: usize,
    points: &[f64],
    tn: &mut [f64],
    dtn: &mut [f64],
    ddtn: &mut [f64],
) -> u8 {
    // SAFETY: four slices by their pointers and lengths. `points` is only read; the other three are
    // borrowed mutably, so they overlap nothing.
    unsafe {
        bbfmm_evaluate_second_derivatives(
            order,
            rows,
            points.as_ptr(),
            points.len(),
            tn.as_mut_ptr(),
            tn.len(),
            dtn.as_mut_ptr(),
            dtn.len(),
            ddtn.as_mut_ptr(),
            ddtn.len(),
        )
    }
}

pub(crate) fn get_m2m_transfer_operators(
    order: usize,
    nodes: &[f64],
    node_polynomials: &[f64],
    operators: &mut [f64],
) -> u8 {
    // SAFETY: three slices by their pointers and lengths. The first two are only read and may be
    // the same; `operators` is borrowed mutably, so it overlaps neither.
    unsafe {
        bbfmm_get_m2m_transfer_operators(
            order,
            nodes.as_ptr(),
            nodes.len(),
            node_polynomials.as_ptr(),
            node_polynomials.len(),
            operators.as_mut_ptr(),
            operators.len(),
        )
    }
}

#[expect(clippy::too_many_arguments, reason = "they are those of the call")]
pub(crate) fn apply_cheb_tensor_transfer(
    dimension: usize,
    order: usize,
    child: usize,
    transpose: bool,
    input: &[f64],
    operators: &[f64],
    first: &mut [f64],
    second: &mut [f64],
) -> u8 {
    // SAFETY: four slices by their pointers and lengths. The first two are only read and may be the
    // same; `first` and `second` are borrowed mutably, so they overlap nothing. The bool is Rust's.
    unsafe {
        bbfmm_apply_cheb_tensor_transfer(
            dimension,
            order,
            child,
            transpose,
            input.as_ptr(),
            input.len(),
            operators.as_ptr(),
            operators.len(),
            first.as_mut_ptr(),
            first.len(),
            second.as_mut_ptr(),
            second.len(),
        )
    }
}

pub(crate) fn generate_chebyshev_target_points(
    dimension: usize,
    order: usize,
    length: f64,
    nodes: &[f64],
    points: &mut [f64],
) -> u8 {
    // SAFETY: two slices by their pointers and lengths. `nodes` is only read; `points` is borrowed
    // mutably, so they do not overlap.
    unsafe {
        bbfmm_generate_chebyshev_target_points(
            dimension,
            order,
            length,
            nodes.as_ptr(),
            nodes.len(),
            points.as_mut_ptr(),
            points.len(),
        )
    }
}

pub(crate) fn generate_chebyshev_source_points(
    dimension: usize,
    order: usize,
    length: f64,
    reference: usize,
    nodes: &[f64],
    points: &mut [f64],
) -> u8 {
    // SAFETY: two slices by their pointers and lengths. `nodes` is only read; `points` is borrowed
    // mutably, so they do not overlap.
    unsafe {
        bbfmm_generate_chebyshev_source_points(
            dimension,
            order,
            length,
            reference,
            nodes.as_ptr(),
            nodes.len(),
            points.as_mut_ptr(),
            points.len(),
        )
    }
}

pub(crate) fn square_root(x: f64) -> f64 {
    // SAFETY: a float crosses by its value, and any float is taken.
    unsafe { bbfmm_square_root(x) }
}

#[expect(clippy::too_many_arguments, reason = "they are those of the call")]
pub(crate) fn sample_distances(
    dimension: usize,
    order: usize,
    length: f64,
    reference: usize,
    nodes: &[f64],
    sources: &mut [f64],
    targets: &mut [f64],
    block: &mut [f64],
) -> u8 {
    // SAFETY: four slices by their pointers and lengths. `nodes` is only read; the three others are
    // borrowed mutably, so they overlap nothing.
    unsafe {
        bbfmm_sample_distances(
            dimension,
            order,
            length,
            reference,
            nodes.as_ptr(),
            nodes.len(),
            sources.as_mut_ptr(),
            sources.len(),
            targets.as_mut_ptr(),
            targets.len(),
            block.as_mut_ptr(),
            block.len(),
        )
    }
}

pub(crate) fn scale_points(
    dimension: usize,
    rows: usize,
    length: f64,
    centre: &[f64],
    points: &mut [f64],
) -> u8 {
    // SAFETY: two slices by their pointers and lengths. `centre` is only read; `points` is borrowed
    // mutably, so they do not overlap.
    unsafe {
        bbfmm_scale_points(
            dimension,
            rows,
            length,
            centre.as_ptr(),
            centre.len(),
            points.as_mut_ptr(),
            points.len(),
        )
    }
}

#[expect(clippy::too_many_arguments, reason = "they are those of the call")]
pub(crate) fn get_approximation_coefficients(
    dimension: usize,
    order: usize,
    rows: usize,
    with_gradients: bool,
    node_polynomials: &[f64],
    coordinates: &[f64],
    values: &mut [f64],
    factors: &mut [f64],
    wanted: Gradients<'_>,
) -> u8 {
    // SAFETY: six slices by their pointers and lengths. The first two are only read and may be the
    // same; the two others and the two of `wanted` are borrowed mutably, so they overlap nothing.
    // The bool is Rust's.
    unsafe {
        bbfmm_get_approximation_coefficients(
            dimension,
            order,
            rows,
            with_gradients,
            wanted.length,
            node_polynomials.as_ptr(),
            node_polynomials.len(),
            coordinates.as_ptr(),
            coordinates.len(),
            values.as_mut_ptr(),
            values.len(),
            wanted.gradients.as_mut_ptr(),
            wanted.gradients.len(),
            factors.as_mut_ptr(),
            factors.len(),
            wanted.slopes.as_mut_ptr(),
            wanted.slopes.len(),
        )
    }
}

pub(crate) fn get_curvature_coefficients(
    dimension: usize,
    order: usize,
    rows: usize,
    length: f64,
    node_polynomials: &[f64],
    coordinates: &[f64],
    lent: &mut Curvatures<'_>,
) -> u8 {
    // SAFETY: seven slices by their pointers and lengths. The first two are only read and may be the
    // same; the five of `lent` are borrowed mutably, so they overlap nothing.
    unsafe {
        bbfmm_get_curvature_coefficients(
            dimension,
            order,
            rows,
            length,
            node_polynomials.as_ptr(),
            node_polynomials.len(),
            coordinates.as_ptr(),
            coordinates.len(),
            lent.curvatures.as_mut_ptr(),
            lent.curvatures.len(),
            lent.factors.as_mut_ptr(),
            lent.factors.len(),
            lent.slopes.as_mut_ptr(),
            lent.slopes.len(),
            lent.bends.as_mut_ptr(),
            lent.bends.len(),
            lent.room.as_mut_ptr(),
            lent.room.len(),
        )
    }
}

#[expect(clippy::too_many_arguments, reason = "they are those of the call")]
pub(crate) fn graham_ratios(
    cell: Cell,
    floor: f64,
    centre: &[f64],
    node_polynomials: &[f64],
    points: &mut [f64],
    gases: Gases<'_>,
    values: &mut [f64],
    factors: &mut [f64],
    answers: &mut [u8],
    ratios: &mut [f64],
) -> u8 {
    // SAFETY: ten slices by their pointers and lengths. The first two and the three of `gases` are
    // only read and may be the same; the five others are borrowed mutably, so they overlap nothing.
    unsafe {
        bbfmm_graham_ratios(
            cell.dimension,
            cell.order,
            cell.length,
            cell.rows,
            floor,
            centre.as_ptr(),
            centre.len(),
            node_polynomials.as_ptr(),
            node_polynomials.len(),
            points.as_mut_ptr(),
            points.len(),
            gases.carbon_monoxide.as_ptr(),
            gases.carbon_monoxide.len(),
            gases.nitrogen.as_ptr(),
            gases.nitrogen.len(),
            gases.oxygen.as_ptr(),
            gases.oxygen.len(),
            values.as_mut_ptr(),
            values.len(),
            factors.as_mut_ptr(),
            factors.len(),
            answers.as_mut_ptr(),
            answers.len(),
            ratios.as_mut_ptr(),
            ratios.len(),
        )
    }
}

pub(crate) fn block_size(text: &[u8], sizes: &mut [usize; 2]) -> u64 {
    // SAFETY: two slices by their pointers and lengths. `text` is only read; `sizes` is borrowed
    // mutably, so they do not overlap.
    unsafe { bbfmm_block_size(text.as_ptr(), text.len(), sizes.as_mut_ptr(), sizes.len()) }
}

pub(crate) fn read_block(text: &[u8], block: &mut [f64], sizes: &mut [usize; 2]) -> u64 {
    // SAFETY: three slices by their pointers and lengths. `text` is only read; the two others are
    // borrowed mutably, so they overlap nothing.
    unsafe {
        bbfmm_read_block(
            text.as_ptr(),
            text.len(),
            block.as_mut_ptr(),
            block.len(),
            sizes.as_mut_ptr(),
            sizes.len(),
        )
    }
}

pub(crate) fn write_block(
    rows: usize,
    columns: usize,
    block: &[f64],
    text: &mut [u8],
    written: &mut [usize; 1],
) -> u64 {
    // SAFETY: three slices by their pointers and lengths. `block` is only read; the two others are
    // borrowed mutably, so they overlap nothing.
    unsafe {
        bbfmm_write_block(
            rows,
            columns,
            block.as_ptr(),
            block.len(),
            text.as_mut_ptr(),
            text.len(),
            written.as_mut_ptr(),
            written.len(),
        )
    }
}

pub(crate) fn argmax_masked(entries: &[f64], mask: &[u8], place: &mut [usize; 1]) -> u8 {
    // SAFETY: three slices by their pointers and lengths. The first two are only read; `place` is
    // borrowed mutably, so it overlaps neither.
    unsafe {
        bbfmm_argmax_masked(
            entries.as_ptr(),
            entries.len(),
            mask.as_ptr(),
            mask.len(),
            place.as_mut_ptr(),
            place.len(),
        )
    }
}

pub(crate) fn calculate_singular_values_cutoff(
    values: &[f64],
    epsilon: f64,
    place: &mut [usize; 1],
) -> u8 {
    // SAFETY: two slices by their pointers and lengths. `values` is only read; `place` is borrowed
    // mutably, so they do not overlap.
    unsafe {
        bbfmm_calculate_singular_values_cutoff(
            values.as_ptr(),
            values.len(),
            epsilon,
            place.as_mut_ptr(),
            place.len(),
        )
    }
}

#[expect(clippy::too_many_arguments, reason = "they are those of the call")]
pub(crate) fn aca_partial_pivoting(
    rows: usize,
    columns: usize,
    samples: &[f64],
    epsilon: f64,
    restart: bool,
    buffers: &mut Buffers<'_>,
    counts: &mut [usize; 3],
    numbers: &mut [f64; 2],
) -> u8 {
    // SAFETY: nine slices by their pointers and lengths. `samples` is only read; the six of
    // `buffers`, each borrowed mutably, and the two arrays overlap nothing. The bool is Rust's.
    unsafe {
        bbfmm_aca_partial_pivoting(
            rows,
            columns,
            samples.as_ptr(),
            samples.len(),
            epsilon,
            restart,
            buffers.u.as_mut_ptr(),
            buffers.u.len(),
            buffers.v.as_mut_ptr(),
            buffers.v.len(),
            buffers.row_list.as_mut_ptr(),
            buffers.row_list.len(),
            buffers.column_list.as_mut_ptr(),
            buffers.column_list.len(),
            buffers.row.as_mut_ptr(),
            buffers.row.len(),
            buffers.column.as_mut_ptr(),
            buffers.column.len(),
            counts.as_mut_ptr(),
            counts.len(),
            numbers.as_mut_ptr(),
            numbers.len(),
        )
    }
}
