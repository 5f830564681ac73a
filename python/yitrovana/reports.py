"""What the program prints, as a dict."""
import ast
import warnings


def read(lines):
    """`saved`, the shape of each file; `workers`, what each one started; and each other line under its words."""
    report = {'saved': {}, 'workers': {}}
    for line in lines.splitlines():
        if line.startswith('saved '):
            name, _, shape = line[len('saved '):].rpartition(' (')
            report['saved'][name] = ast.literal_eval('(' + shape)
        elif ': ' in line:
            word, _, value = line.partition(': ')
            report[word] = value
        else:
            entry(report, *line.rsplit(' ', 1))
    return report


def entry(report, words, value):
    """A line that ends with a number; those of a worker stand together."""
    value = int(value) if value.isdigit() else value
    if words.startswith('worker ') and words.endswith(' started'):
        report['workers'][int(words.split()[1])] = value
    else:
        report[words] = value


def told(report):
    """Warns where the program's own audit of a run didn't agree."""
    if report.get('audit', 'agrees') != 'agrees':
        warnings.warn(f'the audit of this run: {report["audit"]}', RuntimeWarning, stacklevel=2)
