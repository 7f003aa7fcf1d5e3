#!/usr/bin/env python3
"""Holds text to one width, 150 columns. Run it at the project's root: tools/width.py [--write] [FILE ..]

Lists the lines over it: in README.md and docs/*.md (but for tables, code blocks and lines with a link), in the comments of include/*.h, and in
comment lines of .rt and .antt files (those that begin with // or --). --write breaks them: in a page the whole paragraph or list item is filled
anew, its indentation kept; in comments what is over goes to the next line of the same comment, or to a line of its own. Lines within the width
stay as they are where nothing flows into them; a C file is only listed. Named files are looked at in place of all.
"""
import glob
import re
import sys

WIDTH = 150


def words(text):
    """The words of a text; what stands between two backquotes is one word."""
    return re.findall(r'(?:`[^`]*`|\S)+', text)


def fill(text, first, rest):
    """Lines of at most WIDTH, the first with one indentation and the others with another. No line begins with what a page would take for a mark."""
    out, line = [], None
    for word in words(text):
        if line is None:
            line = first + word
        elif len(line) + 1 + len(word) <= WIDTH or re.fullmatch(r'[-+*#>|=]+|\d+[.)]', word):
            line += ' ' + word
        else:
            out.append(line)
            line = rest + word
    return out + [line]


def wide(line):
    return len(line) > WIDTH and '](' not in line and '://' not in line


def page(lines):
    """Blocks of a page: (lines, first indentation, indentation of the others), with None for what isn't filled."""
    blocks, fenced, before = [], False, ''
    for line in lines:
        mark = re.match(r'( *)(?:[-*+]|\d+[.)]) +', line)
        kept = not line.strip() or re.match(r' *(\||#)', line)
        if line.lstrip().startswith('```'):
            fenced = not fenced
            kept = True
        code = line.startswith('    ') and not mark and (not before.strip() or (blocks and blocks[-1][1] is None)) and not listed(blocks)
        if fenced or kept or code:
            blocks.append([[line], None, None])
        elif line.startswith('> '):
            if blocks and blocks[-1][1] == '> ':
                blocks[-1][0].append(line)
            else:
                blocks.append([[line], '> ', '> '])
        elif mark:
            blocks.append([[line], mark.group(0), ' ' * len(mark.group(0))])
        elif before.strip() and blocks and blocks[-1][1] not in (None, '> '):
            blocks[-1][0].append(line)
        else:
            indent = re.match(r' *', line).group(0)
            blocks.append([[line], indent, indent])
        before = line
    return blocks


def listed(blocks):
    """Whether the last block but empty lines belongs to a list, so that an indented line is its text and no code."""
    for lines, first, rest in reversed(blocks):
        if lines[0].strip():
            return rest is not None and rest != '' and first is not None
    return False


def fill_page(text):
    out = []
    for lines, first, rest in page(text.split('\n')):
        if first is None or not any(map(wide, lines)):
            out += lines
        else:
            more = [x.removeprefix('> ') for x in lines[1:]] if first == '> ' else lines[1:]
            out += fill(' '.join([lines[0][len(first):]] + more), first, rest)
    return '\n'.join(out)


def comment(line):
    """The indentation with the mark of a comment line, and its text."""
    m = re.match(r'( *(?:///?|--))( *)(.*)', line)
    return m and (m.group(1), m.group(2), m.group(3))


def fill_comments(text):
    out, carry = [], ''
    lines = text.split('\n')
    for i, line in enumerate(lines):
        c = comment(line)
        if not c:
            out.append(line)
            continue
        if carry:
            line = c[0] + c[1] + carry + ' ' + c[2]
            carry = ''
        if not wide(line):
            out.append(line)
            continue
        new = fill(line[len(c[0] + c[1]):], c[0] + c[1], c[0] + c[1])
        after = comment(lines[i + 1]) if i + 1 < len(lines) else None
        goes_on = after and after[:2] == c[:2] and re.match(r'[^-]', after[2]) and (not re.search(r'[.:;!?]$', line) or after[2][0].islower())
        if goes_on and len(new) > 1:
            carry = new.pop()[len(c[0] + c[1]):]
        out += new
    return '\n'.join(out)


def header(text):
    """The lines of a C file that stand in comments."""
    inside = False
    for n, line in enumerate(text.split('\n'), 1):
        inside = inside or '/*' in line
        if inside:
            yield n, line
        inside = inside and '*/' not in line


def main():
    named = [a for a in sys.argv[1:] if not a.startswith('--')]
    every = ('README.md', 'docs/*.md', 'include/*.h', 'crates/**/*.rt', 'crates/**/*.antt')
    paths = named or [path for kind in every for path in sorted(glob.glob(kind, recursive=True))]
    found = 0
    for path in paths:
        text = open(path, encoding='utf-8').read()
        if '--write' in sys.argv and not path.endswith('.h'):
            new = (fill_page if path.endswith('.md') else fill_comments)(text)
            if new != text:
                open(path, 'w', encoding='utf-8').write(new)
                text = new
        if path.endswith('.md'):
            n = 1
            for lines, first, rest in page(text.split('\n')):
                for line in lines:
                    if first is not None and wide(line):
                        print(f'{path}:{n}: {len(line)}')
                        found += 1
                    n += 1
            continue
        for n, line in header(text) if path.endswith('.h') else enumerate(text.split('\n'), 1):
            if wide(line) and (path.endswith('.h') or comment(line)):
                print(f'{path}:{n}: {len(line)}')
                found += 1
    print(f'{found} lines to look at')
    sys.exit(1 if found else 0)


main()
