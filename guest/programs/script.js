// Tries an interpreter of ECMAScript 5 as a guest: numbers, strings, patterns, closures, exceptions, JSON, sorting.
function fib(n) { return n < 2 ? n : fib(n - 1) + fib(n - 2); }
print(fib(15), 1 / 3, Math.sqrt(2), (255).toString(16), parseFloat("1e-7"), 0.1 + 0.2, 1e21, -0 === 0, Math.pow(2, 0.5));
var numbers = [];
for (var i = 0; i < 200; i++) numbers.push((i * 7919) % 211);
print(numbers.sort(function (a, b) { return a - b; }).slice(0, 12).join(","));
print(JSON.stringify({ name: "guest", items: [1, 2.5, null, true], nested: { text: "a\u00e9" } }));
print(JSON.parse('{"a": [1, {"b": 2}]}').a[1].b, "hello world".replace(/(\w+)/g, "<$1>"), "a-b-c".split("-").length);
try { null.field; } catch (error) { print(error instanceof TypeError); }
var next = (function () { var n = 0; return function () { return ++n; }; })();
print(next() + next(), typeof undefined, [1, 2, 3].map(function (x) { return x * x; }), "\u0041\u00df".toLowerCase());
