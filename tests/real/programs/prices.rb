# The program that the session with rdbg debugs. It ends after the client has its last response, and has made the file GO.
Item = Struct.new(:name, :price)

def total(items)
  result = 0
  items.each do |item|
    result += item.price
  end
  result
end

puts "total #{total([Item.new('tea', 3), Item.new('milk', 4)])}"
sleep 0.01 until File.exist?(ENV.fetch('GO'))
