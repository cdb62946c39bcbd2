// The value of (a + 1) op b, a tree of objects. What can't be done is thrown, and caught.
const leaf = (number) => ({ kind: "number", number });
const node = (kind, left, right) => ({ kind, left, right });

function evaluate(tree) {
    if (tree.kind === "number") {
        return tree.number;
    }
    const left = evaluate(tree.left);
    const right = evaluate(tree.right);
    if (tree.kind === "+") {
        return left + right;
    }
    if (tree.kind === "*") {
        return left * right;
    }
    if (tree.kind === "/") {
        if (right === 0) {
            throw "by zero";
        }
        if (left % right !== 0) {
            throw "no whole number";
        }
        return left / right;
    }
    throw "no operator: " + tree.kind;
}

let answer = "none";
try {
    answer = evaluate(node(op, node("+", leaf(a), leaf(1)), leaf(b)));
} catch (why) {
    answer = why;
}
if (typeof answer === "number" && answer > 20) {
    throw answer;
}
