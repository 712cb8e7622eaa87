"""Contrast of colours, as people with each kind of colour blindness see them."""
import re

# What the eye sees of linear red, green and blue without one kind of cone (Machado, Oliveira and Fernandes, full severity).
EYES = {
    "all cones": ((1, 0, 0), (0, 1, 0), (0, 0, 1)),
    "no long cones": ((0.152286, 1.052583, -0.204868), (0.114503, 0.786281, 0.099216), (-0.003882, -0.048116, 1.051998)),
    "no middle cones": ((0.367322, 0.860646, -0.227968), (0.280085, 0.672501, 0.047413), (-0.011820, 0.042940, 0.968881)),
    "no short cones": ((1.255528, -0.076749, -0.178779), (-0.078411, 0.930809, 0.147602), (0.004733, 0.691367, 0.303900)),
    "no colours": ((0.2126, 0.7152, 0.0722),) * 3,
}


def whole(colour: str) -> str:
    """The six digits of `#rgb` or `#rrggbb`."""
    digits = colour.lstrip("#")
    return "".join(2 * digit for digit in digits) if len(digits) == 3 else digits


def linear(colour: str) -> list[float]:
    """The linear red, green and blue of a colour."""
    digits = whole(colour)
    parts = [int(digits[i:i + 2], 16) / 255 for i in (0, 2, 4)]
    return [part / 12.92 if part <= 0.04045 else ((part + 0.055) / 1.055) ** 2.4 for part in parts]


def seen(colour: str, eye: str) -> list[float]:
    rgb = linear(colour)
    return [min(1, max(0, sum(weight * part for weight, part in zip(row, rgb)))) for row in EYES[eye]]


def luminance(rgb: list[float]) -> float:
    return sum(weight * part for weight, part in zip((0.2126, 0.7152, 0.0722), rgb))


def ratio(one: str, other: str, eye: str = "all cones") -> float:
    """The contrast of two colours, from 1 to 21, as WCAG defines it."""
    low, high = sorted(luminance(seen(colour, eye)) for colour in (one, other))
    return (high + 0.05) / (low + 0.05)


def worst(one: str, other: str) -> float:
    """The least contrast of two colours, over all eyes."""
    return min(ratio(one, other, eye) for eye in EYES)


def over(colour: str, page: str, cover: float) -> str:
    """What a colour of this opacity looks like over a page."""
    parts = [[int(digits[i:i + 2], 16) for i in (0, 2, 4)] for digits in map(whole, (colour, page))]
    return "#" + "".join(f"{round(cover * one + (1 - cover) * other):02x}" for one, other in zip(*parts))


def schemes(css: str, pattern: str) -> list[dict[str, str]]:
    """The colours by name of a light page, and of a dark one, which come after `prefers-color-scheme: dark`."""
    light, dark = css.split("prefers-color-scheme: dark", 1)
    names = dict(re.findall(pattern, light))
    return [names, {**names, **dict(re.findall(pattern, dark))}]
