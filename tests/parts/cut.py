"""Cuts a dump into files: each of them a dump of its own, which begins with the levels that the one before it leaves."""


def head_and_body(text):
    """The definitions of a dump, and the items after them: times and value changes, one a line, without comments and
    without the brackets that some stand in."""
    end = text.index("$enddefinitions") + len("$enddefinitions")
    end = text.index("$end", end) + len("$end")
    items, words = [], iter(text[end:].split())
    for word in words:
        if word == "$comment":
            while next(words) != "$end":
                pass
        elif word[0] in "bBrRsS":
            items.append(f"{word} {next(words)}")
        elif word[0] != "$":
            items.append(word)
    return text[:end] + "\n", items


def code_of(item):
    """The identifier code of a value change."""
    return item.split()[1] if item[0] in "bBrRsS" else item[1:]


def times_of(items):
    """The places of the times that are later than those before them."""
    places, last = [], -1
    for place, item in enumerate(items):
        if item[0] == "#" and int(item[1:]) > last:
            places.append(place)
            last = int(item[1:])
    return places


def files_of(text, cuts):
    """The files of a dump that is cut before these of its items."""
    head, items = head_and_body(text)
    values, files, front, last, done = {}, [], "", "#0", 0
    for cut in [*cuts, len(items)]:
        own = items[done:cut]
        files.append(head + front + "".join(item + "\n" for item in own))
        for item in own:
            if item[0] == "#":
                last = item
            # a real number and a string leave the levels of a variable as they are
            elif item[0] not in "rRsS":
                values[code_of(item)] = item
        front = last + "\n" + "".join(value + "\n" for value in values.values())
        done = cut
    return files


def pieces(text, count, state):
    """The dump cut into at most so many files, before times that are drawn, but for the first."""
    times = times_of(head_and_body(text)[1])
    if len(times) < 2:
        return [text]
    return files_of(text, sorted(state.choice(times[1:]) for _ in range(count - 1)))
