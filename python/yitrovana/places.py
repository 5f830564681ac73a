"""The line of Python that made an array: errors that come later name it."""
import linecache
import sys

PASSED = {'yitrovana', 'numpy'}  # whose own lines a user doesn't look for


def caller():
    """The file and the line of the innermost call from outside this package and NumPy."""
    frame = sys._getframe(1)
    while frame and frame.f_globals.get('__name__', '').partition('.')[0] in PASSED:
        frame = frame.f_back
    return (frame.f_code.co_filename, frame.f_lineno) if frame else None


def told(place):
    """Such a place in words, with what stands there."""
    if not place:
        return 'an unknown line'
    file, line = place
    text = linecache.getline(file, line).strip()
    return f'{file}, line {line}' + (f': {text}' if text else '')
