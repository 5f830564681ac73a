"""The operations that arrays stand on: counted, listed, and as a picture."""
from html import escape

from .limits import count
from .text import unique

BOX, HIGH, ROOM, DOWN, MOST = 150, 36, 24, 34, 400  # of a box its width and height, room beside and below, and how many are drawn
SIGNS = {'neg': '-', '*': '×'}


class Graph:
    """`operations` in the order of a job, and `tasks` and `edges`, all that the program makes of them before it leaves any out."""

    def __init__(self, arrays):
        order, self.keys = unique(arrays)
        self.operations, self.ends = list(order.values()), {self.keys[id(array)] for array in arrays}
        self.tasks, self.edges = count(self.operations, self.number)

    def number(self, array):
        """The place of an array in the order."""
        return self.keys[id(array)]

    def __repr__(self):
        rows = [f'{number:4} {self.named(array)}  shape {array.shape}  chunks {array.chunksize}' for number, array in enumerate(self.operations)]
        return '\n'.join(rows + [f'{self.tasks} tasks, {self.edges} dependencies'])

    def named(self, array):
        """The operation with the numbers of what it stands on."""
        label, operands = title(array), ', '.join(str(self.number(one)) for one in array.operands)
        return f'{label}({operands})' if operands else label

    def _repr_svg_(self):
        return self.svg()

    def save(self, path):
        """Writes the picture."""
        with open(path, 'w', encoding='utf-8') as file:
            file.write(self.svg())

    def svg(self):
        """Boxes in rows, each below those that it stands on; a number stands in the box that uses it."""
        if len(self.operations) > MOST:
            raise ValueError(f'{len(self.operations)} operations are too many for a picture, which has at most {MOST}')
        rows, above = self.rows()
        width, height = max(map(len, rows)) * (BOX + ROOM) + ROOM, len(rows) * (HIGH + DOWN) - DOWN + 2 * ROOM
        at = {item: ((place + 0.5) * width / len(row), ROOM + depth * (HIGH + DOWN))
              for depth, row in enumerate(rows) for place, item in enumerate(row)}
        drawn = [line(at[one], at[item]) for item in at for one in above[item]]
        drawn += [box(self.operations[item], *at[item], item in self.ends) if isinstance(item, int) else through(*at[item]) for item in at]
        return (f'<svg xmlns="http://www.w3.org/2000/svg" width="{width}" height="{height}" viewBox="0 0 {width} {height}" '
                f'font-family="sans-serif" font-size="12" text-anchor="middle">{"".join(drawn)}</svg>')

    def rows(self):
        """The operations in rows, and for each what stands above it. Where a line goes past a row, a pair of its upper end and the row
        stands there."""
        depths, rows, above = {}, [], {}
        for number, array in enumerate(self.operations):
            if array.operation == 'number':
                continue
            operands = [self.number(one) for one in array.operands if one.operation != 'number']
            depths[number] = depth = max((depths[one] + 1 for one in operands), default=0)
            above[number] = [one if depths[one] == depth - 1 else (one, depth - 1) for one in operands]
            rows += [[] for _ in range(depth + 1 - len(rows))]
            rows[depth].append(number)
            for one in operands:
                for row in range(depths[one] + 1, depth):
                    if (one, row) not in above:
                        above[one, row] = [one if row == depths[one] + 1 else (one, row - 1)]
                        rows[row].append((one, row))
        arrange(rows, above)
        return rows, above


def arrange(rows, above):
    """Orders each row by the mean place of what stands above."""
    places = {}
    for row in rows:
        row.sort(key=lambda item: sum(places[one] for one in above[item]) / max(len(above[item]), 1))
        places.update((item, (place + 0.5) / len(row)) for place, item in enumerate(row))


def line(upper, lower):
    return f'<line x1="{upper[0]:.1f}" y1="{upper[1] + HIGH}" x2="{lower[0]:.1f}" y2="{lower[1]}" stroke="#777"/>'


def through(x, y):
    return f'<line x1="{x:.1f}" y1="{y}" x2="{x:.1f}" y2="{y + HIGH}" stroke="#777"/>'


def title(array):
    """The operation with its numbers, and a file by its last name."""
    operation = SIGNS.get(array.operation, array.operation)
    if array.operation == 'number':
        return str(array.parameters[0])
    if array.operation == 'input':
        return array.parameters[0].rpartition('/')[2]
    if array.operation == 'slice':
        return f'[{", ".join(array.parameters)}]'
    if array.operation in ('sum', 'prod', 'min', 'max') and len(array.parameters[0]) < array.operands[0].ndim:
        return f'{operation} over {", ".join(map(str, array.parameters[0]))}'
    numbers = [title(one) for one in array.operands if one.operation == 'number']
    return ' '.join([operation, *numbers])


def box(array, x, y, is_end):
    label = title(array)
    label = label if len(label) <= 22 else label[:21] + '…'
    fill = '#cfe3cf' if is_end else '#dbe7f0' if array.operands else '#e8d9b5'
    return (f'<rect x="{x - BOX / 2:.1f}" y="{y}" width="{BOX}" height="{HIGH}" rx="6" fill="{fill}" stroke="#456"/>'
            f'<text x="{x:.1f}" y="{y + 15}" font-weight="bold">{escape(label)}</text>'
            f'<text x="{x:.1f}" y="{y + 30}">{escape(str(array.shape))}</text>')
