"""The operators of a black-box fast multipole method for NumPy, from a library in which every call is proved to meet its contract.

Chebyshev nodes and polynomials, transfer between a block and its children, turning a block, points, distances, coefficients of
values, gradients and curvature, Graham's ratio, blocks as Matrix Market texts, cross approximation.

Each function here makes one call of the shared object libbbfmm.so; `read_block` makes two. It keeps nothing between calls, so any
thread may call it. It ends for every input, and raises a `Refusal`, with its number, where the input lies outside its limits; then
every array that was given is as it came.

ARRAYS. What is given is lent to the call where it lies, and nothing is copied: an array must have exactly the dtype that is named,
and matrices are column-major. Any other is a TypeError that says what is wanted. What a call writes comes back as new arrays; two
calls change an array in place, and say so. A vector between two blocks and a centre are the exception: they may be any sequence of
numbers.

WORDS. D is the dimension, 1 to 3. p is the order, 1 to 16: how many nodes a block has along an axis. N is p to the power of D, all
its nodes, numbered with the last axis varying fastest. P is the number of points, at most 4,096. Floats may be any, NaN and
infinities included, where no refusal says otherwise.

The block at the vector (0, -2) is a turn of a stored reference block. Its tables say how the nodes are renumbered.

>>> import bbfmm
>>> entry = bbfmm.look_up(2, (0, -2, 0))
>>> bbfmm.reference_vector(2, entry.reference)
(2, 0, 0)
>>> bbfmm.combined_permutation(2, 3, entry.case).tolist()
[2, 5, 8, 1, 4, 7, 0, 3, 6]
"""

from bbfmm.aca import Mode, Report, Stop, aca_partial_pivoting
from bbfmm.chebyshev import (
    Polynomials,
    evaluate_chebyshev_polynomials,
    evaluate_second_derivatives,
    generate_chebyshev_nodes,
    generate_node_set,
)
from bbfmm.choices import argmax_masked, calculate_singular_values_cutoff
from bbfmm.coefficients import Coefficients, get_approximation_coefficients, scale_points
from bbfmm.curvature import Curvatures, get_curvature_coefficients
from bbfmm.distances import Distances, sample_distances, square_root
from bbfmm.exchange import Size, block_size, read_block, write_block
from bbfmm.points import generate_chebyshev_source_points, generate_chebyshev_target_points
from bbfmm.ratios import Air, Gases, Ratios, graham_ratios
from bbfmm.refusal import Fault, Refusal, TextRefusal
from bbfmm.transfer import apply_cheb_tensor_transfer, get_m2m_transfer_operators
from bbfmm.turn import Entry, Moves, combined_permutation, follow_node, inverse_permutation, look_up, reference_vector

__all__ = [
    "Air",
    "Coefficients",
    "Curvatures",
    "Distances",
    "Entry",
    "Fault",
    "Gases",
    "Mode",
    "Moves",
    "Polynomials",
    "Ratios",
    "Refusal",
    "Report",
    "Size",
    "Stop",
    "TextRefusal",
    "aca_partial_pivoting",
    "apply_cheb_tensor_transfer",
    "argmax_masked",
    "block_size",
    "calculate_singular_values_cutoff",
    "combined_permutation",
    "evaluate_chebyshev_polynomials",
    "evaluate_second_derivatives",
    "follow_node",
    "generate_chebyshev_nodes",
    "generate_chebyshev_source_points",
    "generate_chebyshev_target_points",
    "generate_node_set",
    "get_approximation_coefficients",
    "get_curvature_coefficients",
    "get_m2m_transfer_operators",
    "graham_ratios",
    "inverse_permutation",
    "look_up",
    "read_block",
    "reference_vector",
    "sample_distances",
    "scale_points",
    "square_root",
    "write_block",
]
