// Three digits and a check digit: the weighted sum of all four is divisible by 11, and a check of 10 is written X.
const sum = 4 * a + 3 * b + 2 * c;
const check = (11 - sum % 11) % 11;
const written = check === 10 ? "X" : "" + check;
if (written !== last) {
    throw "wrong digit: " + last;
}
if (last === "X") {
}
