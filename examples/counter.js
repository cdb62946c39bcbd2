// Closures: each counter has a state of its own, and a word says which one is told to go on.
function counter(limit) {
    let count = 0;
    return () => {
        if (count === limit) {
            throw "full";
        }
        count++;
        return count;
    };
}

const small = counter(1);
const large = counter(2);
let step = 0;
while (step < times) {
    step++;
    if (word === "s") {
        small();
    } else if (word === "l") {
        large();
    } else {
        break;
    }
}
