"""A random circuit, from its gates to its certificate: the entropy of every cut after each layer, the certificate of the half cut, its
density, the chain of sites at several bonds, and plots. Run it with the package on the path:

    PYTHONPATH=PREFIX/lib/python python3 circuit.py [--qubits 8] [--layers 12] [--seed 1] [--plot page.png] [--cut state.cut]

--plot draws with matplotlib where it is there, --cut writes the last state as a cut file: certify prints the same certificate of it
(a cut file holds up to 9 qubits, the calls take 12)."""
import argparse
import struct

import numpy as np
import zegrafult as zg


# ---- 1. the circuit

def gate(state, n, unitary, qubits):
    """The unitary on the listed qubits, of which the first is its lowest bit. Qubit q is bit q of the index."""
    axes = [n - 1 - q for q in reversed(qubits)]
    tensor = np.moveaxis(state.reshape([2] * n), axes, range(len(axes)))
    shape = tensor.shape
    tensor = (unitary @ tensor.reshape(len(unitary), -1)).reshape(shape)
    return np.ascontiguousarray(np.moveaxis(tensor, range(len(axes)), axes)).reshape(-1)


def random_unitary(rng, dim):
    """A random unitary: the Q of a random matrix, by the proved factorisation."""
    return zg.factorize_gram_schmidt(rng.normal(size=(dim, dim)) + 1j * rng.normal(size=(dim, dim))).q


def layers(n, count, rng):
    """The state after each layer of gates on neighbours."""
    state = np.zeros(2 ** n, dtype=complex)
    state[0] = 1
    for layer in range(count):
        for first in range(layer % 2, n - 1, 2):
            state = gate(state, n, random_unitary(rng, 4), [first, first + 1])
        yield state


# ---- 2. the entropy of every cut

def entropies(state, n):
    """The entropy of the cut behind each qubit, in bits: the middle of the band that is proved."""
    return [sum(zg.entropy_band(state, range(cut)).bits) / 2 for cut in range(1, n)]


# ---- 3. the certificate

def certificate(state, n, listed):
    """The lines that certify prints of this state and this list."""
    found, band = zg.dense_schmidt_values(state, listed), zg.entropy_band(state, listed)
    side = zg.smaller_side(listed, n)
    lines = ['cut %d %d %d %d' % (n, len(listed), 2 ** len(side), 2 ** (n - len(side))), 'side ' + ' '.join(map(str, side))]
    lines += ['value %d %016X' % (i, bits) for i, bits in enumerate(found.values.view(np.uint64))]
    return lines + ['entropy %d %d %d' % (band.low, band.high, band.whole), 'end %d %d %s' % (found.values.size, found.sweeps, 'yes' if found.quiet else 'no')]


def cut_file(state, n, listed):
    """The bytes of a cut file (docs/CONVENTIONS.md)."""
    start = (24 + 4 * len(listed) + 7) // 8 * 8
    head = b'CUT1' + struct.pack('<5I', n, len(listed), 24, start, start + 16 * 2 ** n) + struct.pack('<%dI' % len(listed), *listed)
    return head.ljust(start, b'\0') + state.astype('<c16').tobytes()


# ---- 4. the chain of sites

def chains(state, n):
    """Of the chain at each bond 1, 2, 4 ..: the bond, the cells of its sites, and how much of the state they give back (1 is all)."""
    limits = [2 ** j for j in range(n // 2 + 1)]
    for limit in limits:
        chain = zg.chain_of_sites(state, 1e-12, limit)
        again = chain.state()
        overlap = abs(np.vdot(again, state)) / (np.linalg.norm(again) * np.linalg.norm(state))
        yield limit, sum(site.size for site in chain.sites), overlap, chain.dropped


# ---- 5. plots

def draw(path, n, rows, values, kept):
    """Three plots on one page; False where there is no matplotlib."""
    try:
        import matplotlib
    except ImportError:
        return False
    matplotlib.use('Agg')
    import matplotlib.pyplot as plt
    _, (left, middle, right) = plt.subplots(1, 3, figsize=(14, 4))
    for layer, row in enumerate(rows):
        left.plot(range(1, n), row, color=plt.cm.viridis(layer / len(rows)))
    left.set(xlabel='qubits left of the cut', ylabel='entropy in bits', title='every cut, layer after layer')
    middle.semilogy(range(values.size), values, 'o')
    middle.set(xlabel='rank', ylabel='Schmidt value', title='the half cut')
    right.semilogy([limit for limit, *_ in kept], [max(1 - overlap, 1e-16) for _, _, overlap, _ in kept], 's-')
    right.set(xlabel='largest bond of the chain', ylabel='1 - overlap', title='what the sites give back')
    plt.tight_layout()
    plt.savefig(path)
    return True


def main():
    words = argparse.ArgumentParser(description=__doc__.split('\n')[0])
    words.add_argument('--qubits', type=int, default=8)
    words.add_argument('--layers', type=int, default=12)
    words.add_argument('--seed', type=int, default=1)
    words.add_argument('--plot')
    words.add_argument('--cut')
    given = words.parse_args()
    n, rng = given.qubits, np.random.default_rng(given.seed)

    rows = []
    for state in layers(n, given.layers, rng):
        rows.append(entropies(state, n))
        print('layer %2d  entropies %s' % (len(rows), ' '.join('%.3f' % e for e in rows[-1])))

    half = list(range(n // 2))
    print('the certificate of the half cut:')
    print('\n'.join('    ' + line for line in certificate(state, n, half)))
    values = zg.dense_schmidt_values(state, half).values
    rho = zg.dense_reduced_density(state, half)
    print('its density: trace %.15f, both pages the same: %s' % (np.trace(rho).real, zg.pages_agree(state, half)))
    again = zg.schmidt_values_from_density(zg.normalize_trace(rho)).values
    print('the values by the density: off by at most %.1e' % abs(again[:4] - values[:4]).max())
    kept = list(chains(state, n))
    for limit, cells, overlap, dropped in kept:
        print('chain with bonds up to %2d: %5d cells, overlap %.12f, %d cuts dropped weight' % (limit, cells, overlap, dropped))

    if given.cut:
        with open(given.cut, 'wb') as file:
            file.write(cut_file(state, n, half))
        print('%s is written; certify prints its certificate' % given.cut)
    if given.plot:
        print('%s is drawn' % given.plot if draw(given.plot, n, rows, values, kept) else 'there is no matplotlib to draw %s with' % given.plot)


if __name__ == '__main__':
    main()
