% Waits 100 milliseconds for a message.
{module,w}.
{exports,[{f,0}]}.
{attributes,[]}.
{labels,4}.
{function,f,0,2}.
{label,1}.
{func_info,{atom,w},{atom,f},0}.
{label,2}.
{loop_rec,{f,3},{x,0}}.
remove_message.
return.
{label,3}.
{wait_timeout,{f,2},{integer,100}}.
timeout.
{move,{atom,late},{x,0}}.
return.
