// Is the version at least 1.2.3? Its three numbers decide in their order.
const least = { major: 1, minor: 2, patch: 3 };

function order(a, b) {
    return a < b ? -1 : a > b ? 1 : 0;
}

function compare(a, b) {
    return order(a.major, b.major) || order(a.minor, b.minor) || order(a.patch, b.patch);
}

if (compare({ major, minor, patch }, least) < 0) {
    throw "too old";
}
