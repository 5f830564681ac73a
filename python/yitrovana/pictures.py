"""An array as a notebook shows it: what it takes, and the grid of its chunks on the last two axes."""
from itertools import accumulate

from .limits import count
from .progress import size
from .text import unique

SIDE, LEAST, MOST = 120, 12, 48  # the longer side, the shorter one at least, and how many lines are drawn at most
LAYER, LAYERS = 7, 4             # what stands behind for axes before the last two
LETTER = 7                       # the width of a letter at most
FILL, EDGE = '#e8d9b5', '#5b4a2e'


def html(array):
    """The table of the array and of a chunk, with the picture beside it."""
    order, keys = unique([array])
    tasks, _ = count(order.values(), lambda one: keys[id(one)])
    rows = [('', '<b>Array</b>', '<b>Chunk</b>'), ('Bytes', size(array.nbytes), size(8 * chunk_size(array))),
            ('Shape', array.shape, array.chunksize), ('Count', f'{tasks} tasks', f'{array.npartitions} chunks'), ('Type', 'int64', '')]
    cells = ''.join(f'<tr><th style="text-align:left">{name}</th><td>{one}</td><td>{other}</td></tr>' for name, one, other in rows)
    return f'<table><tr><td><table>{cells}</table></td><td>{svg(array)}</td></tr></table>'


def chunk_size(array):
    result = 1
    for length in array.chunksize:
        result *= length
    return result


def svg(array):
    """The grid, with the lengths beside it; nothing of an array without axes."""
    if not array.ndim:
        return ''
    down, across = ((1,),) * (2 - min(array.ndim, 2)) + array.chunks[-2:]
    longest = max(sum(down), sum(across), 1)
    height, width = (max(LEAST, SIDE * sum(sizes) // longest) for sizes in (down, across))
    layers = min(LAYERS, max(map(sum, array.chunks[:-2]), default=1) - 1) if array.ndim > 2 else 0
    shift = LAYER * max(layers, 0)
    behind = ''.join(f'<rect x="{LAYER * k}" y="{-LAYER * k}" width="{width}" height="{height}" fill="{FILL}"/>' for k in range(layers, 0, -1))
    grid = f'<rect width="{width}" height="{height}" fill="{FILL}"/>' + lines(down, across, height, width)
    wide, high = width + shift + max(80, 16 + LETTER * len(before(array))), height + shift + 26
    return (f'<svg xmlns="http://www.w3.org/2000/svg" width="{wide}" height="{high}" viewBox="-4 {-shift - 4} {wide} {high}" '
            f'stroke="{EDGE}" stroke-width="0.8">{behind}{grid}{labels(array, height, width, shift)}</svg>')


def lines(down, across, height, width):
    """Where the chunks meet."""
    result = ''.join(f'<line x1="0" x2="{width}" y1="{y}" y2="{y}"/>' for y in places(down, height))
    return result + ''.join(f'<line y1="0" y2="{height}" x1="{x}" x2="{x}"/>' for x in places(across, width))


def before(array):
    """The lengths of the axes before the last two."""
    return ' '.join(f'{length} ×' for length in array.shape[:-2])


def labels(array, height, width, shift):
    """The lengths of the axes: across below, down at the right, and those before above."""
    style = f'stroke="none" fill="{EDGE}" font-family="sans-serif" font-size="11"'
    middle = max(width / 2, LETTER / 2 * len(str(array.shape[-1])))
    found = [f'<text x="{middle}" y="{height + 15}" text-anchor="middle" {style}>{array.shape[-1]}</text>']
    if array.ndim > 1:
        found.append(f'<text x="{width + shift + 6}" y="{height / 2 + 4 - shift}" {style}>{array.shape[-2]}</text>')
    if array.ndim > 2:
        found.append(f'<text x="{width + shift + 6}" y="{10 - shift}" {style}>{before(array)}</text>')
    return ''.join(found)


def places(sizes, side):
    """Where lines stand between chunks; of very many only some."""
    ends, length = list(accumulate(sizes))[:-1], max(sum(sizes), 1)
    return [round(end * side / length, 1) for end in ends[::-(-len(ends) // MOST) or 1]]
