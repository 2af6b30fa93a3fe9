(* A mark made of comparisons. *)
let ranks a b c d =
  let below = a < 10 in
  let above = b > 3 in
  let same = c = d in
  let other = a <> b in
  let first = a <= b in
  let least = b >= 2 in
  let mark = ref 0 in
  if below then mark := !mark + 1;
  if above then mark := !mark + 1;
  if same || other then mark := !mark + 2;
  if not first then mark := - !mark;
  if least && (a < c || not (b >= d)) then mark := !mark - 100;
  !mark
