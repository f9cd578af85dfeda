// Draws one level of a map: node examples/levels.mjs MAP.json RANKS.json LEVEL > LEVEL.svg
// MAP.json is the map that `pyramid` ranked, without positions that repeat the one before, and
// RANKS.json its answer. Level k has the positions of rank k or more.
import { readFileSync } from "node:fs";

const [map, { ranks }] = process.argv.slice(2, 4).map((name) => JSON.parse(readFileSync(name)));
const level = Number(process.argv[4]);
const sums = (arc, x = 0, y = 0) => arc.map(([dx, dy]) => [(x += dx), (y += dy)]);
const drawn = map.transform ? map.arcs.map((arc) => sums(arc)) : map.arcs;
const arcs = drawn.map((arc, number) => arc.filter((_, at) => ranks[number][at] >= level));

const [xs, ys] = [0, 1].map((axis) => arcs.flat().map((place) => place[axis]));
const [west, north] = [Math.min(...xs), Math.max(...ys)];
const box = [west, -north, Math.max(...xs) - west, north - Math.min(...ys)];
const spelled = (arc) => arc.map(([x, y]) => `${x},${-y}`).join(" ");
const lines = arcs.map((arc) => `<polyline points="${spelled(arc)}"/>`).join("");
const style = `fill="none" stroke="black" stroke-width="${box[2] / 400}"`;
const svg = `<svg xmlns="http://www.w3.org/2000/svg" viewBox="${box.join(" ")}">`;
console.log(`${svg}<g ${style}>${lines}</g></svg>`);
