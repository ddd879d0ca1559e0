% A server that goes over to current code when it is told so, and ends at any other message.
{module,u}.
{exports,[{loop,0}]}.
{attributes,[]}.
{labels,5}.
{function,loop,0,2}.
{label,1}.
{func_info,{atom,u},{atom,loop},0}.
{label,2}.
{loop_rec,{f,4},{x,0}}.
remove_message.
{test,is_eq_exact,{f,3},[{x,0},{atom,upgrade}]}.
{call_ext_only,0,{extfunc,u,loop,0}}.
{label,3}.
{move,{integer,1},{x,0}}.
return.
{label,4}.
{wait,{f,2}}.
