//! The fixed results of document 01 and of request E4, those that are proved too.

use bbfmm::*;

#[test]
fn vectors() {
    let entry = |index, case, reference, near| {
        Ok(Entry {
            index,
            case,
            reference,
            near,
        })
    };
    assert_eq!(look_up(3, [0, -2, 1]), entry(158, 33, 1, false));
    assert_eq!(look_up(1, [-3, 0, 0]), entry(0, 0, 1, false));
    assert_eq!(look_up(2, [3, 3, 0]), entry(48, 6, 6, false));
    assert_eq!(look_up(2, [1, -1, 0]), entry(30, 4, 0, true));
}

#[test]
fn tables() {
    let mut table = [0; 4];
    assert_eq!(combined_permutation(2, 2, 3, &mut table), Ok(()));
    assert_eq!(table, [2, 0, 3, 1]);
    assert_eq!(inverse_permutation(2, 2, 3, &mut table), Ok(()));
    assert_eq!(table, [1, 3, 0, 2]);
}

#[test]
fn polynomials() {
    let (mut tn, mut dtn) = ([0.0; 4], [9.0; 4]);
    assert_eq!(
        evaluate_chebyshev_polynomials(4, &[0.5], &mut tn, Some(&mut dtn)),
        Ok(())
    );
    assert_eq!(tn, [1.0, 0.5, -0.5, -1.0]);
    assert_eq!(dtn, [0.0, 1.0, 2.0, 0.0]);
}

#[test]
fn moves() {
    let operators = [1.0, 2.0, 3.0, 4.0, 0.0, 0.0, 0.0, 0.0];
    for (transpose, expected) in [(false, [31.0, 42.0]), (true, [21.0, 43.0])] {
        let (mut first, mut second) = ([0.0; 2], [0.0; 2]);
        let input = [1.0, 10.0];
        let result = apply_cheb_tensor_transfer(
            1,
            2,
            0,
            transpose,
            &input,
            &operators,
            &mut first,
            &mut second,
        );
        assert_eq!(result.unwrap(), expected);
    }
}

#[test]
fn choices() {
    let entries = [1.0, -3.0, 3.0];
    assert_eq!(argmax_masked(&entries, &[1, 1, 1]), Ok(1));
    assert_eq!(argmax_masked(&entries, &[1, 0, 1]), Ok(2));
    let cutoffs: [(&[f64], f64, usize); 5] = [
        (&[4.0, 3.0], 0.5, 2),
        (&[4.0, 3.0], 0.75, 1),
        (&[4.0, 3.0], 2.0, 0),
        (&[1.0; 4], 0.5, 4),
        (&[0.0; 2], 0.5, 2),
    ];
    for (values, epsilon, place) in cutoffs {
        assert_eq!(calculate_singular_values_cutoff(values, epsilon), Ok(place));
    }
}

/// The report on a block given by rows, its terms, which are U and V as far as they are filled, and its
/// two lists.
fn crossed<const N: usize>(
    block: [[f64; N]; N],
    epsilon: f64,
    mode: Mode,
) -> (Report, [Vec<f64>; 2], [[u16; N]; 2]) {
    let samples: Vec<f64> = (0..N * N).map(|at| block[at % N][at / N]).collect();
    let (mut u, mut v) = (vec![7.0; N * N], vec![7.0; N * N]);
    let (mut row_list, mut column_list) = ([9; N], [9; N]);
    let (mut row, mut column) = ([0.0; N], [0.0; N]);
    let mut buffers = Buffers {
        u: &mut u,
        v: &mut v,
        row_list: &mut row_list,
        column_list: &mut column_list,
        row: &mut row,
        column: &mut column,
    };
    let report = aca_partial_pivoting(N, N, &samples, epsilon, mode, &mut buffers).unwrap();
    let filled = |factor: Vec<f64>| factor[..N * report.rank].to_vec();
    (report, [filled(u), filled(v)], [row_list, column_list])
}

/// A report by what it tells.
fn told(rank: usize, stop: Stop, rows_read: usize, estimate: f64, smallest: f64) -> Report {
    Report {
        rank,
        stop,
        rows_read,
        estimate,
        smallest,
    }
}

#[test]
fn crosses() {
    let terms = [vec![4.0, 2.0], vec![0.5, 1.0]];
    let block = [[2.0, 4.0], [1.0, 2.0]];
    let report = told(1, Stop::Tolerable, 1, 25.0, 4.0);
    assert_eq!(
        crossed(block, 1.0, Mode::Old),
        (report, terms.clone(), [[0, 9], [1, 9]])
    );
    let report = told(1, Stop::Spent, 2, 25.0, 4.0);
    assert_eq!(
        crossed(block, 0.5, Mode::Old),
        (report, terms, [[0, 1], [1, 9]])
    );
    let (report, _, lists) = crossed([[1.0, 0.0], [0.0, 1.0]], 0.5, Mode::Old);
    assert_eq!((report.rank, report.stop), (1, Stop::Spent));
    assert_eq!(lists, [[0, 0], [0, 9]]);
}

/// The results of request E4.
#[test]
fn restarted_crosses() {
    let unit = [[1.0, 0.0], [0.0, 1.0]];
    let terms = vec![1.0, 0.0, 0.0, 1.0];
    let report = told(2, Stop::UsedUp, 2, 2.0, 1.0);
    assert_eq!(
        crossed(unit, 0.5, Mode::Restart),
        (report, [terms.clone(), terms], [[0, 1], [0, 1]])
    );
    let below_zeros = [[0.0, 0.0], [1.0, 0.0]];
    let report = told(1, Stop::AllTried, 2, 1.0, 1.0);
    assert_eq!(
        crossed(below_zeros, 0.5, Mode::Restart),
        (report, [vec![0.0, 1.0], vec![1.0, 0.0]], [[0, 1], [0, 9]])
    );
}

/// 49 times its rounded inverse is 1 - 2^-53, whose square rounds to 1 - 2^-52; and 2401 times that is
/// below 2401 by 1.17 steps of 2^-41, which rounds to one. The old mode reads row 0 and column 0 again.
#[test]
fn forty_nine_is_read_once() {
    let block = [[49.0, 0.0], [0.0, 0.0]];
    let below_one = 1.0 - 2f64.powi(-53);
    let report = told(1, Stop::AllTried, 2, 2401.0 - 2f64.powi(-41), 49.0);
    assert_eq!(
        crossed(block, 0.5, Mode::Restart),
        (
            report,
            [vec![49.0, 0.0], vec![below_one, 0.0]],
            [[0, 1], [0, 9]]
        )
    );
    let (report, _, lists) = crossed(block, 0.5, Mode::Old);
    assert_eq!((report.rank, report.stop), (2, Stop::Tolerable));
    assert_eq!(report.smallest, 2f64.powi(-47));
    assert_eq!(lists, [[0, 0], [0, 0]]);
}

/// A NaN is no pivot in restart mode, and one in the old mode, where it is passed over as the smallest.
#[test]
fn a_nan_is_a_pivot_in_the_old_mode_only() {
    let report = told(0, Stop::AllTried, 1, 0.0, 0.0);
    let (found, terms, lists) = crossed([[f64::NAN]], 0.5, Mode::Restart);
    assert_eq!((found, lists), (report, [[0], [9]]));
    assert_eq!(found.estimate.to_bits(), 0);
    assert_eq!(terms, [vec![], vec![]]);
    let (found, _, lists) = crossed([[f64::NAN]], 0.5, Mode::Old);
    assert_eq!((found.rank, found.stop), (1, Stop::UsedUp));
    assert!(found.estimate.is_nan());
    assert_eq!(found.smallest.to_bits(), 0);
    assert_eq!(lists, [[0], [0]]);
}

#[test]
fn numbers_and_refusals_agree() {
    let numbers = Refusal::ALL.map(Refusal::number);
    assert_eq!(numbers, [1, 2, 3, 4, 5, 6, 7, 8, 9, 10, 11, 12, 13, 14, 15, 16, 17]);
    assert_eq!(
        [Stop::Tolerable, Stop::Spent, Stop::UsedUp, Stop::AllTried].map(Stop::number),
        [1, 2, 3, 4]
    );
    assert_eq!(
        [Air::Ratio, Air::Unusable, Air::Fresh].map(Air::number),
        [0, 1, 2]
    );
    for number in 0..=u8::MAX {
        let back = Air::with_number(number).map(Air::number);
        assert_eq!(back, (number <= 2).then_some(number));
    }
}
