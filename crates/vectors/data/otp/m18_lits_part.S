{module, m18_lits}.  %% version = 0

{exports, [{a,0},
           {d,0},
           {f,0}]}.

{attributes, []}.

{labels, 21}.


{function, a, 0, 2}.
  {label,1}.
    {line,[{location,"m18_lits.erl",13}]}.
    {func_info,{atom,m18_lits},{atom,a},0}.
  {label,2}.
    {move,{literal,[{a,1},
                    {b,[2,3,{c,"deep"}]},
                    [],{},
                    [[[]]],
                    'Q q',-1,70000,5000000000]},
          {x,0}}.
    return.


{function, d, 0, 9}.
  {label,8}.
    {line,[{location,"m18_lits.erl",17}]}.
    {func_info,{atom,m18_lits},{atom,d},0}.
  {label,9}.
    {move,{literal,{2147483647,-2147483648,4294967295,288230376151711744,
                    -576460752303423488,576460752303423487}},
          {x,0}}.
    return.


{function, f, 0, 13}.
  {label,12}.
    {line,[{location,"m18_lits.erl",19}]}.
    {func_info,{atom,m18_lits},{atom,f},0}.
  {label,13}.
    {move,{literal,"a long string that is a literal joined"},{x,0}}.
    return.
