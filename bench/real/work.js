// What Duktape and MuJS run, ECMAScript 5: calls, closures, arrays, strings, JSON, regular expressions, prototypes, sorting.
function fib(n) { return n < 2 ? n : fib(n - 1) + fib(n - 2); }
print('fib', fib(19));

var seed = 12345;
function random(n) { seed = (seed * 1103 + 12345) % 1048576; return Math.floor(seed / 64) % n; }

var list = [];
for (var i = 0; i < 1500; i++) list.push(random(100000));
list.sort(function (a, b) { return a - b; });
var sum = 0;
for (i = 0; i < list.length; i++) sum = (sum * 31 + list[i] * i) % 1000003;
print('sort', sum);

var words = [];
for (i = 0; i < 800; i++) {
    var word = '';
    for (var j = random(8); j >= 0; j--) word += String.fromCharCode(97 + random(6));
    words.push(word);
}
var text = words.join(' '), count = {};
text.split(' ').forEach(function (it) { count[it] = (count[it] || 0) + 1; });
var most = Object.keys(count).sort().reduce(function (a, b) { return count[b] > count[a] ? b : a; });
print('words', most, count[most], text.length, text.toUpperCase().indexOf('FACE'));
print('regexp', text.match(/[ab]+c?d/g).length, text.replace(/(\w)b(\w)/g, '$2-$1').length, /(f\w*?) (\w+e) /.exec(text)[2]);

var records = [];
for (i = 0; i < 150; i++) records.push({id: i, name: words[i], tags: [words[i + 1], i * 1.5, null, i % 2 === 0], more: {depth: {n: -i}}});
var json = JSON.stringify(records), again = JSON.parse(json), pretty = JSON.stringify(again, null, 2);
print('JSON', json.length, pretty.length, again[149].tags[1], JSON.stringify(JSON.parse(pretty)) === json);

function Shape(w, h) { this.w = w; this.h = h; }
Shape.prototype.area = function () { return this.w * this.h; };
function Cube(n) { Shape.call(this, n, n); this.d = n; }
Cube.prototype = Object.create(Shape.prototype);
Cube.prototype.volume = function () { return this.area() * this.d; };
var volume = 0, area = 0;
for (i = 0; i < 2500; i++) { area += new Shape(i % 7, i % 11).area(); volume += new Cube(i % 13).volume(); }
print('objects', area, volume);

function counter() { var n = 0; return {up: function (by) { n += by; return this; }, get value() { return n; }}; }
var counters = [];
for (i = 0; i < 40; i++) counters.push(counter());
for (i = 0; i < 6000; i++) counters[i % 40].up(i % 5).up(1);
print('closures', counters.map(function (it) { return it.value; }).filter(function (it) { return it % 2 === 0; }).length);

var sieve = [], primes = 0;
for (i = 2; i < 6000; i++) {
    if (sieve[i]) continue;
    primes++;
    for (j = i * i; j < 6000; j += i) sieve[j] = true;
}
print('sieve', primes);

var x = 0;
for (i = 1; i < 1500; i++) x += Math.sin(i) / (i + 0.5);
print('floats', x.toFixed(9), Math.floor(x * 1e6), (0.1 + 0.2).toPrecision(12), parseInt('ff', 16), parseFloat('1.5e3'));

function caught(f) { try { f(); return 'none'; } catch (e) { return e instanceof TypeError ? 'TypeError' : e.name; } finally { x = 0; } }
function refuse() { throw new RangeError('r'); }
print('errors', caught(function () { null.x(); }), caught(function () { undefinedName; }), caught(refuse));
