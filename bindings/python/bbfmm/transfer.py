"""The operators between a block and its children, and the tensor transfer."""

from bbfmm import _given, _room
from bbfmm._library import make


def get_m2m_transfer_operators(order, nodes, node_polynomials):
    """The operators from a child's nodes to its parent's, on one axis.

    - `nodes`: float64 of shape (p,).
    - `node_polynomials`: float64 of shape (p, p), column-major. Column k has T_k at the nodes.

    Answers a float64 array of shape (p, 2p), column-major. The first p columns are the operator of the lower child, the others that of
    the upper. What is given is only read. Refuses with 2, 7.

    Two nodes at -0.5 and 0.5, where T_0 is 1 and T_1 is the node. The children's nodes are -0.75, -0.25, 0.25 and 0.75.

    >>> import numpy as np
    >>> nodes = np.array([-0.5, 0.5])
    >>> node_polynomials = np.array([[1.0, -0.5], [1.0, 0.5]], order="F")
    >>> get_m2m_transfer_operators(2, nodes, node_polynomials).tolist()
    [[0.875, 0.625, 0.375, 0.125], [0.125, 0.375, 0.625, 0.875]]
    >>> get_m2m_transfer_operators(2, nodes[:1], node_polynomials)
    Traceback (most recent call last):
    bbfmm.refusal.Refusal: refused with 7: an array has not the size that the other arguments imply
    """
    axis_nodes = _room.axis_nodes(order)
    operators = _room.matrix(axis_nodes, 2 * axis_nodes)
    make(
        "get_m2m_transfer_operators",
        order=order,
        nodes=nodes,
        node_polynomials=_given.shaped("node_polynomials", node_polynomials, order, order),
        operators=operators,
    )
    return operators


def apply_cheb_tensor_transfer(dimension, order, child, transpose, input, operators):
    """Moves the values at the nodes of a child to its block, or, with `transpose`, from the block to the child.

    The child is below 2, 4, 8 for dimension 1, 2, 3; it is the upper one on axis a where bit a of it is 1.

    - `input`: float64 of shape (N,).
    - `operators`: float64 of shape (p, 2p), column-major, as from `get_m2m_transfer_operators`.

    Answers a float64 array of shape (N,). What is given is only read. Refuses with 1, 2, 5, 7.

    The columns (1, 2) and (3, 4) for the lower child, and none for the upper.

    >>> import numpy as np
    >>> operators = np.array([[1.0, 3.0, 0.0, 0.0], [2.0, 4.0, 0.0, 0.0]], order="F")
    >>> values = np.array([1.0, 10.0])
    >>> apply_cheb_tensor_transfer(1, 2, 0, False, values, operators).tolist()
    [31.0, 42.0]
    >>> apply_cheb_tensor_transfer(1, 2, 0, True, values, operators).tolist()
    [21.0, 43.0]
    >>> apply_cheb_tensor_transfer(1, 2, 2, True, values, operators)
    Traceback (most recent call last):
    bbfmm.refusal.Refusal: refused with 5: the case, reference number, child or node is not below how many there are
    """
    block_nodes = _room.block_nodes(dimension, order)
    first, second = _room.floats(block_nodes), _room.floats(block_nodes)
    make(
        "apply_cheb_tensor_transfer",
        dimension=dimension,
        order=order,
        child=child,
        transpose=transpose,
        input=input,
        operators=_given.shaped("operators", operators, order, 2 * order),
        first=first,
        second=second,
    )
    # The call takes an axis a pass, from one of the two to the other.
    return first if dimension == 2 else second
