"""Pictures and level buffers for the self-check and the vectors."""

from pyramid import (VALUE_LIMIT, AxisTaps, bin_index, expand_level, expand_taps, flatten, index_values, rebuild_levels,
                     reduce_taps, split_levels)
from seeded import Seeded
from settings import FULL_GREYS, Settings, level_size

# Names of the kinds of pictures that picture_of knows.
PICTURE_KINDS = ("black", "white", "impulse", "hole", "checkerboard", "column step", "row step", "diagonal step",
                 "column gradient", "row gradient", "diagonal gradient", "noise", "black and white noise")


def height_of(kind: str, i: int, j: int, columns: int, rows: int, span: int, numbers: Seeded) -> int:
    """How far above black, 0 to the span, is column i and row j in a picture of a kind that needs no drawn node."""
    rules = {
        "black": lambda: 0,
        "white": lambda: span,
        "checkerboard": lambda: span * ((i + j) % 2),
        "column step": lambda: span * (2 * i >= columns),
        "row step": lambda: span * (2 * j >= rows),
        "diagonal step": lambda: span * (i * rows >= j * columns),
        "column gradient": lambda: span * i // (columns - 1),
        "row gradient": lambda: span - span * j // (rows - 1),
        "diagonal gradient": lambda: span * (i + j) // (columns + rows - 2),
        "noise": lambda: numbers.between(0, span),
        "black and white noise": lambda: span * numbers.between(0, 1),
    }
    return rules[kind]()


def single_pixel(columns: int, rows: int, background: int, pixel: int, numbers: Seeded) -> bytes:
    """One pixel at a drawn place on a background."""
    pixels = [background] * (columns * rows)
    pixels[numbers.between(0, columns * rows - 1)] = pixel
    return bytes(pixels)


def picture_of(kind: str, columns: int, rows: int, numbers: Seeded, greys: tuple[int, int] = FULL_GREYS) -> bytes:
    """A picture of a kind between a black and a white, row after row."""
    black, white = greys
    if kind == "impulse":
        return single_pixel(columns, rows, black, white, numbers)
    if kind == "hole":
        return single_pixel(columns, rows, white, black, numbers)
    return bytes(black + height_of(kind, i, j, columns, rows, white - black, numbers)
                 for j in range(rows) for i in range(columns))


def lawful_picture(kind: str, settings: Settings, numbers: Seeded) -> bytes:
    """A picture of a kind that the settings' coding accepts."""
    return picture_of(kind, settings.columns, settings.rows, numbers, (settings.black, settings.white))


# Pictures and level buffers that drive one node as far as possible.

def spread(weights: list[int], taps: list[AxisTaps], count: int) -> list[int]:
    """Weights of an axis of count nodes, from weights of the axis that the taps make out of it."""
    result = [0] * count
    for node_weight, node_taps in zip(weights, taps, strict=True):
        for position, tap_weight in node_taps:
            result[position] += node_weight * tap_weight
    return result


def average_weights(side: int, level: int, weights: list[int], kernel: int) -> list[int]:
    """Weights of the picture's axis of a side in a sum over the nodes of a level, times 20 for each level."""
    for below in range(level - 1, -1, -1):
        count = level_size(side, side, below)[0]
        weights = spread(weights, reduce_taps(count, kernel), count)
    return weights


def prediction_weights(side: int, level: int, weights: list[int], kernel: int) -> list[int]:
    """The same for a sum over the nodes of EXPAND of the next level's averages, times 20 once more for EXPAND."""
    count = level_size(side, side, level + 1)[0]
    return average_weights(side, level + 1, spread(weights, expand_taps(count, kernel), count), kernel)


def one_at(position: int, count: int) -> list[int]:
    """Weight 1 at one position of an axis, 0 elsewhere."""
    return [int(place == position) for place in range(count)]


def extreme_picture(settings: Settings, level: int, node: tuple[int, int], sign: int) -> bytes:
    """The picture that makes g (at level N) or L (below) of one node as large or small as the weights allow."""
    axes = []
    for side, position in zip((settings.columns, settings.rows), node, strict=True):
        start = one_at(position, level_size(side, side, level)[0])
        average = average_weights(side, level, start, settings.kernel)
        prediction = [0] * side
        if level < settings.depth:
            prediction = prediction_weights(side, level, start, settings.kernel)
        axes.append(list(zip(average, prediction, strict=True)))
    # The prediction has two more factors of 20 on each axis, and the factor 4 of EXPAND.
    return bytes(settings.white if sign * (20 ** 4 * average_i * average_j - 4 * prediction_i * prediction_j) > 0
                 else settings.black
                 for average_j, prediction_j in axes[1] for average_i, prediction_i in axes[0])


def largest_index(bin_size: int) -> int:
    """The largest lawful index at a bin."""
    return VALUE_LIMIT // bin_size


def rebuild_weights(side: int, depth: int, position: int, kernel: int) -> list[list[int]]:
    """For levels 0 to N: the weights of an axis's nodes in the rebuilt pixel at a position, up to a positive factor."""
    weights = [one_at(position, side)]
    for level in range(1, depth + 1):
        count = level_size(side, side, level)[0]
        weights.append(spread(weights[-1], expand_taps(count, kernel), count))
    return weights


def extreme_indices(settings: Settings, pixel: tuple[int, int], sign: int) -> list[int]:
    """The lawful level buffer that makes the rebuilt value of one pixel as large or small as the weights allow."""
    column_weights = rebuild_weights(settings.columns, settings.depth, pixel[0], settings.kernel)
    row_weights = rebuild_weights(settings.rows, settings.depth, pixel[1], settings.kernel)
    indices: list[int] = []
    for level in range(settings.depth, -1, -1):
        size = largest_index(settings.bins[level])
        indices += [size * sign * (1 if column * row >= 0 else -1)
                    for row in row_weights[level] for column in column_weights[level]]
    return indices


def random_indices(settings: Settings, numbers: Seeded) -> list[int]:
    """A level buffer of random lawful indices."""
    indices: list[int] = []
    for level in range(settings.depth, -1, -1):
        columns, rows = level_size(settings.columns, settings.rows, level)
        size = largest_index(settings.bins[level])
        indices += [numbers.between(-size, size) for _ in range(columns * rows)]
    return indices


def near_indices(settings: Settings, numbers: Seeded) -> list[int]:
    """A lawful level buffer whose rebuilt values lie around black and white, some between them and some outside."""
    indices: list[int] = []
    for level in range(settings.depth, -1, -1):
        columns, rows = level_size(settings.columns, settings.rows, level)
        size = settings.bins[level]
        low, high = (settings.black - 60, settings.white + 60) if level == settings.depth else (-60, 60)
        indices += [numbers.between(low // size, high // size) for _ in range(columns * rows)]
    return indices


def balanced_indices(settings: Settings, numbers: Seeded) -> list[int]:
    """Any lawful indices above level 0, and at level 0 those that bring the pixels near and between black and white.

    So every index has its full part in a pixel that the clamp leaves as it is.
    """
    indices = random_indices(settings, numbers)
    predicted = [[0] * settings.columns for _ in range(settings.rows)]
    if settings.depth > 0:
        above = rebuild_levels(index_values(indices, settings)[1:], settings.kernel)
        predicted = expand_level(above[0], settings.kernel)
    size = settings.bins[0]
    largest = largest_index(size)
    levels = split_levels(indices, settings)
    wanted = [[numbers.between(settings.black - 20, settings.white + 20) - value for value in row] for row in predicted]
    levels[0] = [[max(-largest, min(largest, bin_index(value, size))) for value in row] for row in wanted]
    return flatten(levels)


def patterned_indices(settings: Settings, pattern: str) -> list[int]:
    """The largest lawful indices, their signs by a pattern of plus, minus, column, row, node or level."""
    indices: list[int] = []
    for level in range(settings.depth, -1, -1):
        columns, rows = level_size(settings.columns, settings.rows, level)
        size = largest_index(settings.bins[level])
        for j in range(rows):
            for i in range(columns):
                turn = {"plus": 0, "minus": 1, "column": i, "row": j, "node": i + j, "level": level}[pattern]
                indices.append(size if turn % 2 == 0 else -size)
    return indices
