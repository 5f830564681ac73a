#!/usr/bin/env python3
"""Draws the table of bench/compare.sh, as a file has it, as a picture.

    /usr/bin/python3 bench/chart.py [TABLE [PICTURE]]

Without names it takes the table in bench/README.md and writes bench/compare.png. It needs matplotlib (Debian: python3-matplotlib).
"""
import os
import sys

import matplotlib

matplotlib.use('Agg')
import matplotlib.pyplot as plt
from matplotlib.ticker import FuncFormatter, NullFormatter

HERE = os.path.dirname(os.path.abspath(__file__))
HEAD = '| Job | Run by | Processor time | Wall time | Peak memory |'
MARKS = {'this program': ('#d55e00', 'o', 50), 'NumPy': ('#0072b2', 's', 28), 'Dask, threads': ('#009e73', '^', 34),
         'Dask.distributed': ('#8c6bb1', 'D', 24)}
PANELS = (('Processor time', 's'), ('Wall time', 's'), ('Peak memory', 'MiB'))


def rows(path):
    """Of each row the job, who ran it, and the three figures."""
    with open(path, encoding='utf-8') as file:
        lines = file.read().split(HEAD, 1)[1].split('\n')[2:]
    job = ''
    for line in lines:
        if not line.startswith('|'):
            break
        cells = [cell.strip() for cell in line.strip('|').split('|')]
        job = cells[0].replace('`', '') or job
        yield job, cells[1], [float(cell.split()[0]) for cell in cells[2:]]


def plain(value, _):
    return f'{value:g}'


def draw(panel, table, number, jobs):
    title, unit = PANELS[number]
    # a time of less than the table's hundredths stands at its least
    figures = {(job, who): max(values[number], 0.01) for job, who, values in table}
    for row, job in enumerate(jobs):
        panel.axhspan(row - 0.42, row + 0.42, color='#f4f4f4', lw=0, zorder=0)
        for place, (who, (color, mark, size)) in enumerate(MARKS.items()):
            panel.scatter(figures[job, who], row + 0.19 * (place - 1.5), s=size, c=color, marker=mark, zorder=2, linewidths=0,
                          label=who if row == 0 else None)
    panel.set_xscale('log')
    panel.xaxis.set_major_formatter(FuncFormatter(plain))
    panel.xaxis.set_minor_formatter(NullFormatter())
    panel.set_title(f'{title}, {unit}', fontsize=10, loc='left')
    panel.grid(axis='x', color='#dcdcdc')
    panel.set_axisbelow(True)
    panel.tick_params(which='both', length=0, labelsize=8.5)
    panel.spines[:].set_visible(False)


def main(table=os.path.join(HERE, 'README.md'), picture=os.path.join(HERE, 'compare.png')):
    table = list(rows(table))
    jobs = list(dict.fromkeys(job for job, _, _ in table))
    figure, panels = plt.subplots(1, 3, sharey=True, figsize=(10.5, 0.5 * len(jobs) + 1.2))
    for number, panel in enumerate(panels):
        draw(panel, table, number, jobs)
    panels[0].set_yticks(range(len(jobs)), jobs)
    panels[0].set_ylim(len(jobs) - 0.5, -0.5)
    figure.legend(*panels[0].get_legend_handles_labels(), loc='upper center', ncol=len(MARKS), frameon=False, fontsize=9)
    figure.tight_layout(rect=(0, 0, 1, 0.93))
    figure.savefig(picture, dpi=110)


if __name__ == '__main__':
    main(*sys.argv[1:])
