// Is there such a day? 1900 was no leap year, 2000 was one.
function isLeap(year) {
    return year % 4 === 0 && (year % 100 !== 0 || year % 400 === 0);
}

function lastDay(year, month) {
    if (month === 2) {
        return isLeap(year) ? 29 : 28;
    }
    return month === 4 || month === 6 || month === 9 || month === 11 ? 30 : 31;
}

if (month < 1 || month > 12) {
    throw "month";
}
if (day < 1 || day > lastDay(year, month)) {
    throw "day";
}
