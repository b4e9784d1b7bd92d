declaration template site/functions;

# The interface of a machine: rack and place give its address.
function interface_at = dict('address', format('10.1.%d.%d', ARGV[0], ARGV[1]), 'gateway', format('10.1.%d.1', ARGV[0]));
