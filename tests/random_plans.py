"""Random plans that the check accepts: every column is there, no row is wider than 64, and only closed nodes are used again."""
from plan_table import *
from rules import columns_read, rewritten, row_width

WIDEST = 64
CONSTANTS = [0, 1, -1, 7, -(2**31), 2**31 - 1]


class Grower:
    def __init__(self, dice):
        self.dice = dice
        widest = dice.choice([1, 2, 3, 5, 5, 12, 30, 63, WIDEST])
        self.tables = [dice.randint(1, widest) for _ in range(dice.choice([1, 2, 3, 16]))]
        self.outer_share = dice.choice([0.1, 0.3, 0.6])
        self.again_share = dice.choice([0, 0.2, 0.5])
        self.deep = dice.random() < 0.4
        self.weights = [dice.choice([1, 2, 4]) for _ in range(6)] + [dice.choice([2, 6, 20])]
        self.nodes, self.rows, self.reads = [], [], []
        self.grow([], dice.choice([3, 5, 5, 8, 12, 20, 40, 80, 160]))

    def add(self, made):
        self.nodes.append(made)
        self.rows.append(row_width(self.tables, self.rows, made))
        self.reads.append(columns_read(self.reads, made))
        return len(self.nodes) - 1

    # A term over a row of this width, with the rows around it, the nearest first.
    def term(self, width, around):
        dice = self.dice
        if around and dice.random() < self.outer_share:
            level = dice.randrange(min(len(around), 8))
            return outer(level, dice.choice([around[level] - 1, dice.randrange(around[level])]))
        if dice.random() < 0.15:
            return dice.choice([NULL, constant(dice.choice(CONSTANTS))])
        return local(dice.choice([width - 1, dice.randrange(width)]))

    def conjuncts(self, width, around):
        dice = self.dice
        return [item(dice.randint(1, 7), self.term(width, around), self.term(width, around)) for _ in range(dice.randint(0, 3))]

    def aggregates(self, width, most):
        dice = self.dice
        some = [COUNT] + [make(dice.randrange(width)) for make in (sum_of, minimum, maximum)]
        return [dice.choice(some) for _ in range(dice.randint(1, min(3, most)))]

    # A node with about so many nodes below it, those used again not counted.
    def grow(self, around, size):
        dice = self.dice
        closed = [number for number, reads in enumerate(self.reads) if not reads]
        if around and closed and dice.random() < (0.5 if size <= 1 else self.again_share):
            return dice.choice(closed)
        if size <= 1:
            return self.add(scan(dice.randrange(len(self.tables))))
        operator = dice.choices(range(2, 9), self.weights)[0]
        return self.two_inputs(operator, around, size - 1) if operator in (5, 7, 8) else self.one_input(operator, around, size - 1)

    def one_input(self, operator, around, size):
        dice = self.dice
        left = self.grow(around, size)
        width = self.rows[left]
        if operator == 3 and width < WIDEST:
            terms = self.term(width, around), self.term(width, around)
            return self.add(compute(left, dice.choice([copy(terms[0]), add(*terms), subtract(*terms)])))
        if operator == 4:
            return self.add(project(left, *[output(dice.randrange(width)) for _ in range(dice.randint(1, min(WIDEST, width + 1)))]))
        if operator == 6:
            keys = [key(dice.randrange(width)) for _ in range(dice.randint(0, 2))]
            return self.add(group(left, *keys, *([] if keys and dice.random() < 0.3 else self.aggregates(width, 3))))
        return self.add(select(left, *self.conjuncts(width, around)))

    def two_inputs(self, operator, around, size):
        dice = self.dice
        share = dice.randint(0, min(size, 2) if self.deep else size)
        left = self.grow(around, share)
        width = self.rows[left]
        right = self.grow([width] + around if operator == 8 else around, size - share)
        both = width + self.rows[right]
        conjuncts = self.conjuncts(both, around)
        if operator == 7 and width < WIDEST:
            return self.add(groupjoin(left, right, *conjuncts, *self.aggregates(self.rows[right], WIDEST - width)))
        kind = dice.choice([INNER, LEFT_OUTER, INNER, LEFT_OUTER, SEMI, ANTI] if both <= WIDEST else [SEMI, ANTI])
        return self.add(node(8 if operator == 8 else 5, left, right, kind, conjuncts))

    # Closed selects between a scan and its users, of which the first has all the conjuncts.
    def pad(self, selects, conjuncts):
        base = next(number for number, made in enumerate(self.nodes) if made[0] == 1)
        first = len(self.nodes)
        self.nodes = [repointed(made, {base: first + selects - 1}) for made in self.nodes]
        self.nodes.append(select(base, *[equal(local(0), NULL)] * conjuncts))
        self.nodes += [select(first + k) for k in range(selects - 1)]


def inputs(made):
    return [] if made[0] == 1 else [made[1], made[2]] if made[0] in (5, 7, 8) else [made[1]]


# The node with its inputs renumbered.
def repointed(made, numbers):
    below = [numbers.get(number, number) for number in inputs(made)]
    return made[:1] + tuple(below) + made[1 + len(below) :]


# The nodes in another order in which inputs come first; the root stays last, since all others are below it.
def shuffled(dice, nodes):
    numbers = {}
    waiting = list(range(len(nodes)))
    while waiting:
        dice.shuffle(waiting)
        for number in waiting:
            if all(below in numbers for below in inputs(nodes[number])):
                numbers[number] = len(numbers)
        waiting = [number for number in waiting if number not in numbers]
    return [repointed(nodes[number], numbers) for number in numbers]


# Some plans are brought near a limit of their rewriting.
def random_plan(dice):
    grower = Grower(dice)
    new = rewritten(grower.tables, grower.nodes)
    items = sum(len(made[4]) for made in new)
    own_items = sum(len(made[4]) for made in grower.nodes)
    chance = dice.random()
    if len(grower.nodes) > 1 and chance < 0.05 and len(new) < 250:
        grower.pad(min(dice.randint(254, 258) - len(new), 256 - len(grower.nodes)), 0)
    elif len(grower.nodes) > 1 and chance < 0.1 and items < 1990:
        grower.pad(1, min(dice.randint(1990, 2003) - items, 2000 - own_items))
    return grower.tables, shuffled(dice, grower.nodes)
