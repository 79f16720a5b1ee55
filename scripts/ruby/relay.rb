# Forwards each connection to another port of this machine, and prints the bytes that the client sends. Arguments: its own port, the
# other port.
require 'socket'

own_port, other_port = ARGV.map(&:to_i)
$stdout.sync = true
server = TCPServer.new('127.0.0.1', own_port)
loop do
  near = server.accept
  far = TCPSocket.new('127.0.0.1', other_port)
  requests = Thread.new do
    loop do
      part = near.readpartial(65_536)
      print part
      far.write(part)
    end
  rescue EOFError, IOError, SystemCallError
    nil
  end
  IO.copy_stream(far, near)
  requests.kill
  [near, far].each(&:close)
end
