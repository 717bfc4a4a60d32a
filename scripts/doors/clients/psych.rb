# Prints, for each file that a line of standard input names, its name and what psych makes of it: a checksum of its events
# with their marks, or the error. After `--bare`, whether a document without `---` may follow `...`, and nothing else.
# Run by clients.sh.
require "psych"
require "digest"

class Events < Psych::Handler
  attr_reader :sum, :place

  def initialize
    super
    @sum = Digest::SHA256.new
  end

  def event_location(*place)
    @place = place
  end

  EVENTS.each do |event|
    define_method(event) { |*fields| @sum << [event, fields, @place].inspect }
  end
end

def told(text)
  events = Events.new
  Psych::Parser.new(events).parse(text)
  events.sum.hexdigest
rescue Psych::SyntaxError => error
  "refused: #{error.problem} #{error.context}, line #{error.line}"
end

if ARGV == ["--bare"]
  puts told("a\n...\nb\n").start_with?("refused") ? "refused" : "read"
else
  STDIN.each_line(chomp: true) do |name|
    puts "#{name}\t#{told(File.binread(name))}"
  end
end
