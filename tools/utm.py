"""UTM on the WGS 84 ellipsoid to degrees and back, by the series of Krueger to the sixth order, as C. F. F. Karney gives them
(Transverse Mercator with an accuracy of a few nanometers, 2011). tools/export takes it."""
import math

A, F, SCALE, EAST = 6378137.0, 1 / 298.257223563, 0.9996, 500000.0
N = F / (2 - F)
E = math.sqrt(F * (2 - F))
RADIUS = A / (1 + N) * (1 + N**2 / 4 + N**4 / 64 + N**6 / 256)
ALPHA = (
    N / 2 - 2 * N**2 / 3 + 5 * N**3 / 16 + 41 * N**4 / 180 - 127 * N**5 / 288 + 7891 * N**6 / 37800,
    13 * N**2 / 48 - 3 * N**3 / 5 + 557 * N**4 / 1440 + 281 * N**5 / 630 - 1983433 * N**6 / 1935360,
    61 * N**3 / 240 - 103 * N**4 / 140 + 15061 * N**5 / 26880 + 167603 * N**6 / 181440,
    49561 * N**4 / 161280 - 179 * N**5 / 168 + 6601661 * N**6 / 7257600,
    34729 * N**5 / 80640 - 3418889 * N**6 / 1995840,
    212378941 * N**6 / 319334400,
)
BETA = (
    N / 2 - 2 * N**2 / 3 + 37 * N**3 / 96 - N**4 / 360 - 81 * N**5 / 512 + 96199 * N**6 / 604800,
    N**2 / 48 + N**3 / 15 - 437 * N**4 / 1440 + 46 * N**5 / 105 - 1118711 * N**6 / 3870720,
    17 * N**3 / 480 - 37 * N**4 / 840 - 209 * N**5 / 4480 + 5569 * N**6 / 90720,
    4397 * N**4 / 161280 - 11 * N**5 / 504 - 830251 * N**6 / 7257600,
    4583 * N**5 / 161280 - 108847 * N**6 / 3991680,
    20648693 * N**6 / 638668800,
)


def conformal(tau):
    """The tangent of the conformal latitude, of that of the geodetic one."""
    sigma = math.sinh(E * math.atanh(E * tau / math.hypot(1, tau)))
    return tau * math.hypot(1, sigma) - sigma * math.hypot(1, tau)


def to_degrees(east, north, zone, south):
    """Latitude and longitude of a UTM point."""
    xi, eta = (north - (10000000.0 if south else 0.0)) / (SCALE * RADIUS), (east - EAST) / (SCALE * RADIUS)
    x = xi - sum(b * math.sin(2 * j * xi) * math.cosh(2 * j * eta) for j, b in enumerate(BETA, 1))
    y = eta - sum(b * math.cos(2 * j * xi) * math.sinh(2 * j * eta) for j, b in enumerate(BETA, 1))
    due = math.sin(x) / math.hypot(math.sinh(y), math.cos(x))
    tau = due
    for _ in range(6):  # Newton's steps: each doubles the digits
        off = conformal(tau)
        tau += (due - off) / math.hypot(1, off) * (1 + (1 - E * E) * tau * tau) / ((1 - E * E) * math.hypot(1, tau))
    return math.degrees(math.atan(tau)), math.degrees(math.atan2(math.sinh(y), math.cos(x))) + 6 * zone - 183


def from_degrees(latitude, longitude, zone, south):
    """East and north of a point in degrees."""
    tau, turn = conformal(math.tan(math.radians(latitude))), math.radians(longitude - (6 * zone - 183))
    x, y = math.atan2(tau, math.cos(turn)), math.asinh(math.sin(turn) / math.hypot(tau, math.cos(turn)))
    xi = x + sum(a * math.sin(2 * j * x) * math.cosh(2 * j * y) for j, a in enumerate(ALPHA, 1))
    eta = y + sum(a * math.cos(2 * j * x) * math.sinh(2 * j * y) for j, a in enumerate(ALPHA, 1))
    return EAST + SCALE * RADIUS * eta, SCALE * RADIUS * xi + (10000000.0 if south else 0.0)
