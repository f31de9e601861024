(* Wrong words, and documents that are too long. For library.py. *)
let () =
  let problem = "request:\n" and long = String.make 268435457 ' ' in
  List.iter
    (fun ({ status; report } : Cudf_check.answer) ->
      print_string
        ((match status with Usage -> "4" | Unread -> "5" | _ -> "other") ^ List.hd (String.split_on_char ' ' report)))
    Cudf_check.
      [
        run [ "check"; "--after=x" ] [ problem; "" ]; run [] []; run [ "rank"; "--criteria=new" ] [ problem; ""; long ];
        run [ "lint" ] [ long ]; run [ "refute" ] [ ""; long ]; run [ "rank"; "--criteria=-new" ] [ problem; ""; long ];
      ]
