"""Copying: where a block leads on to blocks whose conditions then are constants, copies of them follow it.

From a block a row is made: the block is folded, and then, again and again, it is folded with a copy of the block behind it to which it
leads; a block with a condition is taken in only where the condition is then a constant. The best part of a row is what stands behind the
last such block, or behind a return after one. It is taken where the row came to its end (a return, a condition that is no constant, or
the block itself) with at most `budget` steps more that are no constants, and where it does not end inside a loop that it entered."""
from blocks import accesses, moved, renamed, sides, weight, with_values, work
from fold import fold_block

MOST_SEEN, MOST_NEAR = 4096, 16
MOST_SIZE, MOST_ACCESSES = 8_000_000, 1024


def joined(block, behind):
    """A block with a copy of the block behind it to which it leads."""
    args, steps, jump = block
    new = moved(jump[1][1], len(args) + len(steps))
    return args, [*steps, *(renamed(step, new) for step in behind[1])], with_values(behind[2], new)


class Row:
    """What was taken in behind a block; `best` is the best part so far, a block with the numbers of the blocks that it took in."""

    def __init__(self, blocks, number, budget, divided):
        self.blocks, self.number, self.divided = blocks, number, divided
        self.most_work = work(blocks[number]) + 2 * budget
        self.block, self.taken, self.best, self.unseen = fold_block(blocks[number], divided), [], None, MOST_SEEN

    def can_take_in(self, behind):
        """Whether what is looked at does not weigh too much, the steps are not too many, the values can be numbered, and something was
        decided or this is the first copy."""
        return (weight(behind) <= self.unseen and work(self.block) <= self.most_work and weight(self.block) + weight(behind) <= MOST_SIZE
                and (self.best is not None or not self.taken))

    def take_in(self, number):
        """Takes in a copy of a block; whether the row goes on, which it does not before a condition that is no constant."""
        behind = self.blocks[number]
        block = fold_block(joined(self.block, behind), self.divided)
        if behind[2][0] == "if" and block[2][0] == "if":
            return False
        self.block, self.unseen = block, self.unseen - weight(behind)
        self.taken.append(number)
        if behind[2][0] == "if" or block[2][0] == "return" and self.best:
            self.best = block, list(self.taken)
        return True

    def best_part(self):
        """The best part of the row; None where there is none, or where the row came to no end."""
        while self.block[2][0] == "go" and self.block[2][1][0] != self.number:
            to = self.block[2][1][0]
            if not self.can_take_in(self.blocks[to]):
                return None
            if not self.take_in(to):
                break
        return self.best


def reaches(blocks, start, wanted, avoided):
    """Whether a block is a wanted one or leads to one, round the avoided one; the search sees at most so many blocks."""
    seen, left = {start}, [start]
    while left:
        at = left.pop()
        if at in wanted:
            return True
        for to, _ in sides(blocks[at][2]):
            if to not in seen and to != avoided and len(seen) < MOST_NEAR:
                seen.add(to)
                left.append(to)
    return False


def ends_inside(blocks, number, made, taken):
    """Whether a row ends inside a loop that it entered: it leads to a block that it took in, round the block it stands behind."""
    return made[2][0] == "go" and reaches(blocks, made[2][1][0], set(taken), number)


def copy(graph, budget, divided, most):
    """All blocks once, in order, each on what stands then; a block that would weigh more than `most` stays."""
    blocks, size = list(graph.blocks), graph.size()
    for number, block in enumerate(blocks):
        found = Row(blocks, number, budget, divided).best_part() if block[2][0] == "go" else None
        if not found:
            continue
        made, taken = found
        larger = size + weight(made) - weight(block)
        is_small = work(made) <= work(block) + budget and weight(made) <= most and accesses(made) <= MOST_ACCESSES and larger <= MOST_SIZE
        if is_small and not ends_inside(blocks, number, made, taken):
            blocks[number], size = made, larger
    return graph.with_blocks(blocks)
