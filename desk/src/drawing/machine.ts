/** A machine as a picture: dagre places the states and the labels, this draws them. */
import dagre from "dagre";
import { Card, setName } from "../model/card";
import { Arc, Machine } from "../model/machine";
import { escaped, FONT, INK, MARKED, number, PAPER, SOFT, textWidth } from "./svg";

/** A list of symbols longer than this is cut short. */
const LISTED = 8;
/** More marks than this are a number. */
const STARS = 4;
const STATE = 14;
const LABEL = 12.5;
const LINE = 15;
const MARGIN = 8;
const START = "start";

/** A set by its name, cut short where it is a long list of symbols. */
function setLabel(card: Card, bits: bigint): string {
  const name = setName(card, bits);
  const listed = name.split(",");
  return listed.length <= LISTED ? name : `${listed.slice(0, LISTED).join(",")}… (${listed.length})`;
}

interface Label {
  readonly text: string;
  readonly kind: string;
  readonly stars: string;
}

function arcLabel(card: Card, arc: Arc): Label {
  const stars = arc.marks > STARS ? `${arc.marks} *` : "*".repeat(arc.marks);
  return { text: `${setLabel(card, arc.inputs)} : ${setLabel(card, arc.outputs)}`, kind: arc.kind === "any" ? "" : arc.kind, stars };
}

function labelWidth({ text, kind, stars }: Label): number {
  return textWidth([text, kind, stars].filter((part) => part).join("  "), LABEL) + 6;
}

/** A smooth line through the points, as far as the circle at its end. */
function path(points: readonly { x: number; y: number }[]): string {
  const [first, ...rest] = points as [{ x: number; y: number }, ...{ x: number; y: number }[]];
  const at = ({ x, y }: { x: number; y: number }) => `${number(x)} ${number(y)}`;
  if (rest.length < 2) return `M${at(first)} L${rest.map(at).join(" ")}`;
  // Quadratic pieces between the middles of the points: dagre's own bends, rounded.
  const middle = (a: { x: number; y: number }, b: { x: number; y: number }) => ({ x: (a.x + b.x) / 2, y: (a.y + b.y) / 2 });
  let text = `M${at(first)} L${at(middle(first, rest[0]!))}`;
  rest.slice(0, -1).forEach((point, index) => (text += ` Q${at(point)} ${at(middle(point, rest[index + 1]!))}`));
  return `${text} L${at(rest[rest.length - 1]!)}`;
}

/** The machine as SVG. Arcs between the same two states share an arrow. */
export function machineSvg(card: Card, machine: Machine): string {
  const graph = new dagre.graphlib.Graph({ multigraph: true });
  graph.setGraph({ rankdir: "LR", nodesep: 26, ranksep: 30, edgesep: 14, marginx: MARGIN, marginy: MARGIN });
  graph.setDefaultEdgeLabel(() => ({}));
  graph.setNode(START, { width: 6, height: 6 });
  const sizes = machine.states.map(({ name, ending }) => {
    const width = Math.max(textWidth(name, STATE), ending ? textWidth("*".repeat(ending), STATE) : 0);
    return Math.max(30, width + 14, ending ? 40 : 0);
  });
  sizes.forEach((size, state) => graph.setNode(String(state), { width: size, height: size }));
  graph.setEdge(START, "0", { minlen: 1, width: 0, height: 0 });
  const labels = new Map<string, Label[]>();
  for (const arc of machine.arcs) {
    const key = `${arc.from} ${arc.to}`;
    labels.set(key, [...(labels.get(key) ?? []), arcLabel(card, arc)]);
  }
  for (const [key, list] of labels) {
    const [from, to] = key.split(" ") as [string, string];
    graph.setEdge(from, to, { width: Math.max(...list.map(labelWidth)), height: LINE * list.length + 6, labelpos: "c" });
  }
  dagre.layout(graph);
  const arrows = graph.edges().map((edge) => {
    const { points, x, y } = graph.edge(edge);
    const list = edge.v === START ? [] : labels.get(`${edge.v} ${edge.w}`)!;
    const top = y - (LINE * (list.length - 1)) / 2;
    const texts = list.map((label, at) => arrowText(label, x, top + LINE * at));
    return `<path d="${path(points)}" fill="none" stroke="${SOFT}" marker-end="url(#arrow)"/>${texts.join("")}`;
  });
  const states = machine.states.map((state, at) => stateText(state.name, state.ending, graph.node(String(at)), sizes[at]! / 2));
  const start = graph.node(START);
  // dagre leaves the labels of loops out of the graph's size.
  const reach = graph.edges().map((edge) => graph.edge(edge)).filter(({ x }) => x !== undefined);
  const width = Math.max(graph.graph().width, ...reach.map((edge) => edge.x + edge.width / 2 + MARGIN));
  const height = Math.max(graph.graph().height, ...reach.map((edge) => edge.y + edge.height / 2 + MARGIN));
  return [
    `<svg xmlns="http://www.w3.org/2000/svg" role="img" aria-label="${escaped(machine.name)}: the machine" width="${number(width)}" height="${number(height)}" viewBox="0 0 ${number(width)} ${number(height)}" font-family="${FONT}">`,
    `<defs><marker id="arrow" viewBox="0 0 8 8" refX="7.5" refY="4" markerWidth="7" markerHeight="7" orient="auto"><path d="M0 0.6 L8 4 L0 7.4z" fill="${SOFT}"/></marker></defs>`,
    `<circle cx="${number(start.x)}" cy="${number(start.y)}" r="2.5" fill="${INK}"/>`,
    ...arrows,
    ...states,
    "</svg>",
  ].join("\n");
}

/** A label on paper of its own, so that the arrow does not run through it. */
function arrowText(label: Label, x: number, y: number): string {
  const { text, kind, stars } = label;
  const width = labelWidth(label) - 2;
  const parts = [escaped(text), kind ? `<tspan font-style="italic">${kind}</tspan>` : "", stars].filter((part) => part).join("&#160; ");
  const paper = `<rect x="${number(x - width / 2)}" y="${number(y - LINE / 2)}" width="${number(width)}" height="${LINE}" fill="${PAPER}"/>`;
  return `${paper}<text x="${number(x)}" y="${number(y + LABEL / 3)}" text-anchor="middle" font-size="${LABEL}" fill="${stars ? MARKED : INK}">${parts}</text>`;
}

function stateText(name: string, ending: number | null, { x, y }: { x: number; y: number }, radius: number): string {
  const ring = (r: number) => `<circle cx="${number(x)}" cy="${number(y)}" r="${number(r)}" fill="${r === radius ? "#fff" : "none"}" stroke="${INK}"/>`;
  const lift = ending ? -STATE / 2 : 0;
  const text = (words: string, at: number, fill: string) =>
    `<text x="${number(x)}" y="${number(y + at + STATE / 3)}" text-anchor="middle" font-size="${STATE}" fill="${fill}">${words}</text>`;
  const marks = ending ? text("*".repeat(ending), STATE / 2 + 2, MARKED) : "";
  return `${ring(radius)}${ending === null ? "" : ring(radius - 3)}${text(escaped(name), lift, INK)}${marks}`;
}
