// A door lock: its code is 1, 2, 3, and the second wrong key blocks it. Each input is a key that is pressed.
const lock = { right: 0, wrong: 0, isOpen: false };

function isRight(key) {
    return key === lock.right + 1;
}

function press(key) {
    if (lock.wrong === 2) {
        throw "blocked";
    }
    if (isRight(key)) {
        lock.right++;
    } else {
        lock.right = 0;
        lock.wrong++;
    }
    if (lock.right === 3) {
        lock.isOpen = true;
    }
}

for (const key of [first, second, third, fourth, fifth]) {
    if (!lock.isOpen) {
        press(key);
    }
}
