/** What is used of dagre (Debian's node-dagre-layout). */
declare module "dagre" {
  interface Place { x: number; y: number }
  interface Node extends Place { width: number; height: number }
  interface Edge { points: Place[]; x: number; y: number; width: number; height: number }
  class Graph {
    constructor(options: { multigraph?: boolean });
    setGraph(label: object): void;
    graph(): { width: number; height: number };
    setDefaultEdgeLabel(make: () => object): void;
    setNode(name: string, label: { width: number; height: number }): void;
    setEdge(from: string, to: string, label: object, name?: string): void;
    node(name: string): Node;
    edge(edge: { v: string; w: string; name?: string }): Edge;
    edges(): { v: string; w: string; name?: string }[];
  }
  const dagre: { graphlib: { Graph: typeof Graph }; layout(graph: Graph): void };
  export default dagre;
}
