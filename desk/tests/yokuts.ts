/** Epenthesis whose site the constraints leave open: an i before or after the second of three consonants. */
export const YOKUTS = `symbols C V i
set seg = C V
machine *CCC
  states none one two
  final none one two
  arc none -> one   0,seg : C
  arc one  -> two   0,seg : C
  arc two  -> two   0,seg : C  1
  arc none -> none  0,seg : V,i
  arc one  -> none  0,seg : V,i
  arc two  -> none  0,seg : V,i
  arc none -> none  seg : 0
  arc one  -> one   seg : 0
  arc two  -> two   seg : 0
machine Dep
  states one
  final one
  arc one -> one  seg : seg,0
  arc one -> one  0 : i  1
machine Max
  states one
  final one
  arc one -> one  C : C
  arc one -> one  V : V
  arc one -> one  0 : i
  arc one -> one  seg : 0  1
line *CCC Max Dep / V C C C V
`;
