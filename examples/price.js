// Ten tickets or more cost a tenth less, and twenty or more a fifth less: so says the table. No path takes the second
// branch, since the first one is taken by each group of twenty.
function each(group) {
    if (group >= 10) {
        return 9;
    } else if (group >= 20) {
        return 8;
    }
    return 10;
}

let price = group * each(group);
if (age < 6) {
    price = 0;
} else if (age < 18 || age >= 65) {
    price = price - 2 * group;
}
