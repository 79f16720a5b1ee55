# An application with the Unleash client for Ruby. For each feature and each of 20 users, it compares the client's evaluation of its
# feed with the server's evaluation for a browser, and prints each difference. Then it prints the status of a request for a feed that
# the client already has. Arguments: the server's address, a client token, a frontend token.
require 'json'
require 'net/http'
require 'tmpdir'
require 'unleash'

address, client_token, frontend_token = ARGV
client = Unleash::Client.new(
  url: "#{address}/api", app_name: 'shop', log_level: Logger::ERROR, refresh_interval: 3600, metrics_interval: 3600,
  backup_file: "#{Dir.mktmpdir}/features.json",
  custom_http_headers: { 'Authorization' => client_token, 'Unleash-Client-Spec' => '3.1.0' }
)
none = Unleash::Variant.new(name: 'disabled', enabled: false)

(1..20).each do |user|
  context = Unleash::Context.new(user_id: user.to_s)
  reply = Net::HTTP.get(URI("#{address}/api/frontend/all?userId=#{user}"), 'Authorization' => frontend_token)
  JSON.parse(reply)['toggles'].each do |toggle|
    name = toggle['name']
    served = [toggle['enabled'], toggle['variant']['name']]
    decided = [client.is_enabled?(name, context), client.get_variant(name, context, none).name]
    puts "#{name} for #{user}: #{decided} by the client, #{served} by the server" if decided != served
  end
end

known = Unleash::Util::Http.get(Unleash.configuration.fetch_toggles_url, Unleash.toggle_fetcher.etag)
puts "a feed that is known: #{known.code}"
client.shutdown
