"""Makes a program on which the two differ smaller, as long as they differ in the same way."""


def balance(lines):
    """Whether the braces of these lines open and close among themselves."""
    depth = 0
    for line in lines:
        for one in line:
            depth += (one == '{') - (one == '}')
            if depth < 0:
                return False
    return depth == 0


def without(files, name, first, last):
    lines = files[name].split('\n')
    return {**files, name: '\n'.join(lines[:first] + lines[last:])}


def reduce(files, holds, budget=250):
    """The files with as few lines as `holds` allows, after at most so many trials."""
    trials = 0
    size = max(text.count('\n') for text in files.values()) // 2 or 1
    while size and trials < budget:
        changed = False
        for name in sorted(files):
            first = 0
            while first < files[name].count('\n') + 1 and trials < budget:
                lines = files[name].split('\n')
                last = min(first + size, len(lines))
                if any(lines[first:last]) and balance(lines[first:last]):
                    trials += 1
                    smaller = without(files, name, first, last)
                    if holds(smaller):
                        files, changed = smaller, True
                        continue
                first += max(1, size // 2)
        if not changed or size > 1:
            size //= 2
    return {name: text for name, text in files.items() if text.strip()}
