(* Compactions of a heap of which about half is alive: so many lists of two cells are kept, and each second one is replaced between
   two compactions, so that all but the first blocks move. Prints the live words and blocks, and the most memory in KiB. *)

let count = int_of_string Sys.argv.(1)
let kept = Array.make count []

let replace_half round =
  for i = 0 to count - 1 do
    if (i + round) land 1 = 0 then kept.(i) <- [i; i + 1]
  done

(* What the system says of this process in a line with this name. *)
let size_in name line =
  try Scanf.sscanf line "%s@: %d" (fun it size -> if it = name then Some size else None)
  with Scanf.Scan_failure _ | Failure _ | End_of_file -> None

let rec find name lines =
  match size_in name (input_line lines) with Some size -> size | None -> find name lines

let () =
  replace_half 0;
  replace_half 1;
  for round = 0 to 6 do
    replace_half round;
    Gc.compact ()
  done;
  let found = Gc.stat () in
  Printf.printf "pauses %d %d %d\n" found.Gc.live_words found.Gc.live_blocks (find "VmHWM" (open_in "/proc/self/status"))
