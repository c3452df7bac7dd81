"""Chains of generations, coded open-loop, closed-loop or in both manners by turns."""

from collections import Counter
from collections.abc import Sequence
from dataclasses import dataclass, replace

from manners import CLOSED, MANNERS, OPEN, Manner
from pictures import PICTURE_KINDS, picture_of
from pyramid import rebuild
from seeded import CLOSED_BIN_FAMILIES, SEED, Seeded, bins_of, random_greys
from settings import FULL_GREYS, KERNELS, PIXEL_OUTSIDE, Settings, deepest_depth, total_nodes
from tally import Tally

# Sizes that differ but keep the number of pixels.
SIZE_GROUPS = (((9, 5), (5, 9), (3, 15), (15, 3)), ((17, 17),), ((13, 5), (5, 13)), ((2, 2),),
               ((33, 9), (9, 33), (27, 11)))

# Outcomes of a generation beside its manner.
REFUSED = "refused"
TURNED_DOWN = "turned down"


@dataclass(frozen=True)
class Generation:
    """The manner and the settings of a generation, and the lengths of the buffers that are lent.

    The picture length is that of the rebuilding's buffer.
    """

    manner: Manner
    settings: Settings
    picture_length: int
    level_length: int
    work_length: int


def run_generation(step: Generation, picture: bytes) -> tuple[int, bytes]:
    """The refusal of a generation, that of its coding or of its rebuilding, or 0; and the picture that it leaves."""
    coded = step.manner.code(step.settings, picture, step.level_length, step.work_length)
    if coded.refusal != 0:
        return coded.refusal, picture
    rebuilt = rebuild(step.settings, coded.indices, step.picture_length, step.work_length)
    return rebuilt.refusal, rebuilt.picture if rebuilt.refusal == 0 else picture


def other_greys(greys: tuple[int, int], numbers: Seeded) -> tuple[int, int]:
    """A black and a white that may be further apart or nearer; in most draws the same."""
    black, white = greys
    way = numbers.between(0, 9)
    if way == 0:
        return numbers.between(0, black), numbers.between(white, 255)
    if way == 1 and white - black > 2:
        return black + 1, white - 1
    return {2: FULL_GREYS, 3: random_greys(numbers)}.get(way, greys)


def draw_settings(numbers: Seeded, columns: int, rows: int, greys: tuple[int, int]) -> Settings:
    """Lawful settings of a size."""
    depth = numbers.between(0, deepest_depth(columns, rows)[1])
    return Settings(columns, rows, depth, numbers.choice(KERNELS),
                    bins_of(numbers.choice(CLOSED_BIN_FAMILIES), depth, numbers), *greys)


def draw_generation(numbers: Seeded, sizes: Sequence[tuple[int, int]], manner: Manner,
                    greys: tuple[int, int]) -> Generation:
    """A generation with settings of one of the sizes; some have unlawful settings or lengths."""
    settings = draw_settings(numbers, *numbers.choice(sizes), other_greys(greys, numbers))
    nodes = total_nodes(settings.columns, settings.rows, settings.depth)
    step = Generation(manner, settings, settings.columns * settings.rows, nodes, nodes + numbers.between(0, 2))
    fault = numbers.between(0, 11)
    if fault == 0:
        return replace(step, settings=replace(settings, kernel=2))
    if fault == 1:
        return replace(step, picture_length=step.picture_length + 1)
    if fault == 2:
        return replace(step, level_length=step.level_length - 1)
    if fault == 3:
        return replace(step, settings=replace(settings, white=settings.black))
    return step


def outcome_of(step: Generation, refusal: int) -> str:
    """Its manner, or that it was refused, or that it turned the pixels at hand down (document 02, P5)."""
    if refusal == 0:
        return step.manner.name
    return TURNED_DOWN if refusal == PIXEL_OUTSIDE else REFUSED


def check_chain(tally: Tally, name: str, numbers: Seeded, sizes: Sequence[tuple[int, int]],
                manners: Sequence[Manner]) -> list[str]:
    """A chain of up to 8 generations stays within the sum of the level 0 bounds of its accepted ones.

    Each generation's bound is that of its manner. The result is the outcome of each.
    """
    greys = random_greys(numbers)
    first = picture_of(numbers.choice(PICTURE_KINDS), *sizes[0], numbers, greys)
    at_hand = first
    total = 0
    outcomes = []
    for turn in range(numbers.between(0, 8)):
        step = draw_generation(numbers, sizes, numbers.choice(manners), greys)
        refusal, left = run_generation(step, at_hand)
        if refusal == 0:
            total += step.manner.bounds(step.settings)[1][0]
            inside = step.settings.black <= min(left) and max(left) <= step.settings.white
            tally.true(f"{name}, step {turn}: an accepted generation leaves pixels between its black and white", inside)
        else:
            tally.true(f"{name}, step {turn}: a refused generation leaves the picture it got", left == at_hand)
        outcomes.append(outcome_of(step, refusal))
        at_hand = left
    within = all(abs(a - b) <= total for a, b in zip(first, at_hand, strict=True))
    tally.true(f"{name}: within the sum of bounds {total}", within)
    return outcomes


def is_later_turned_down(outcomes: list[str]) -> bool:
    """Say whether a generation turned down the pixels that an accepted one left."""
    return any(outcome == TURNED_DOWN and set(outcomes[:place]) & {OPEN.name, CLOSED.name}
               for place, outcome in enumerate(outcomes))


def check_chains(tally: Tally) -> None:
    """Chains in each manner alone and in both by turns, of sizes that differ but keep the number of pixels."""
    for seed, manners in ((SEED + 4, (OPEN,)), (SEED + 10, (CLOSED,)), (SEED + 11, MANNERS)):
        numbers = Seeded(seed)
        names = " and ".join(manner.name for manner in manners)
        chains = [check_chain(tally, f"{names} chain {turn}", numbers, SIZE_GROUPS[turn % len(SIZE_GROUPS)], manners)
                  for turn in range(200)]
        outcomes = Counter(outcome for chain in chains for outcome in chain)
        wanted = {manner.name for manner in manners} | {REFUSED, TURNED_DOWN}
        tally.equal(f"outcomes in {names} chains", set(outcomes), wanted)
        rarest = min(outcomes.values())
        tally.true(f"generations with the rarest outcome in {names} chains: {rarest}", rarest > 20)
        # Chains in which every outcome occurs: for both manners, an open, a closed, a refused and a turning down one.
        whole = sum(set(chain) == wanted for chain in chains)
        tally.true(f"{names} chains with every outcome: {whole}", whole > 20)
        later = sum(is_later_turned_down(chain) for chain in chains)
        tally.true(f"{names} chains that turn down what they left: {later}", later > 20)


def run(tally: Tally) -> None:
    """All checks of generations."""
    check_chains(tally)
