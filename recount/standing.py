"""Request W13, standing of makers, from its sentences.

Records are pairs of maker number and rating. A call is a kind, a maker number and a rating. After an
accepted call the used records are sorted anew; what `after` says of a whole list of calls knows no
records at all.
"""


JOIN, CHANGE, LEAVE = 1, 2, 3
LIMIT = 512  # records and calls of a case
WRONG, MAKER, FULL = 23, 24, 25


def in_order(records):
    """By rating downwards, equal ratings by lower maker number."""
    return sorted(records, key=lambda record: (-record[1], record[0]))


def is_wrong(records, count):
    used = records[:count]
    makers = [number for number, _ in used]
    return count > len(records) or used != in_order(used) or len(set(makers)) < len(makers)


def refusal(records, count, call):
    """The lowest number that applies, 0 where none does."""
    kind, number, _ = call
    if is_wrong(records, count):
        return WRONG
    present = number in dict(records[:count])
    if present == (kind == JOIN):
        return MAKER
    return FULL if kind == JOIN and count == len(records) else 0


def step(records, count, call):
    """The refusal, and the records and the count after the call."""
    refused = refusal(records, count, call)
    if refused:
        return refused, records, count
    kind, number, rating = call
    ratings = dict(records[:count])
    if kind == LEAVE:
        del ratings[number]
    else:
        ratings[number] = rating
    used = in_order(ratings.items())
    behind = records[len(used) :]
    return 0, used + behind, len(used)


def after(size, calls):
    """The present makers with the ratings last accepted, from the calls alone, and the refusals."""
    ratings, refused = {}, []
    for kind, number, rating in calls:
        if (number in ratings) == (kind == JOIN):
            refused.append(MAKER)
        elif kind == JOIN and len(ratings) == size:
            refused.append(FULL)
        else:
            refused.append(0)
            if kind == LEAVE:
                del ratings[number]
            else:
                ratings[number] = rating
    return ratings, refused


# ---------------------------------------------------------------- the case of `probe`


def is_call(kind, rating):
    return kind in (JOIN, CHANGE) or (kind == LEAVE and rating == 0)


def probe(words, data):
    """`7 size count`, size records, `n`, n calls, and nothing else."""
    if len(words) < 4 or words[1] > LIMIT or len(words) < 4 + 2 * words[1]:
        return None
    size, count = words[1:3]
    records = list(zip(words[3 : 3 + 2 * size : 2], words[4 : 3 + 2 * size : 2]))
    n, *rest = words[3 + 2 * size :]
    if n > LIMIT or len(data) != 4 * (4 + 2 * size + 3 * n):
        return None
    calls = list(zip(rest[::3], rest[1::3], rest[2::3]))
    if not all(is_call(kind, rating) for kind, _, rating in calls):
        return None
    out = []
    for call in calls:
        refused, records, count = step(records, count, call)
        out.append(f"refused {refused}" if refused else f"accepted {count}")
    used = records[:count] if count <= size else []
    return [*out, " ".join(["standing", *(str(word) for record in used for word in record)])]
