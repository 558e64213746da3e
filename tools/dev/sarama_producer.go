// Sends records to partition 0 of topic t of a broker on this machine, by the Go client of Debian's package
// golang-github-shopify-sarama-dev. tools/dev/kafka_clients.py and kafka_plain_test.py call it:
//
//	GO111MODULE=off GOPATH=/usr/share/gocode go run tools/dev/sarama_producer.go ADDRESS VERSION CODEC plain|idempotent [COUNT]
//
// CODEC is none, gzip, snappy, lz4 or zstd. It sends three records of its own, or COUNT of one form.
package main

import (
	"fmt"
	"log"
	"os"
	"strconv"
	"strings"
	"time"

	"github.com/Shopify/sarama"
)

func main() {
	version, err := sarama.ParseKafkaVersion(os.Args[2])
	if err != nil {
		log.Fatal(err)
	}
	config := sarama.NewConfig()
	config.Version = version
	config.Producer.Partitioner = sarama.NewManualPartitioner
	config.Producer.Return.Successes = true
	config.Producer.Retry.Max = 0
	codec, isKnown := map[string]sarama.CompressionCodec{"none": sarama.CompressionNone, "gzip": sarama.CompressionGZIP,
		"snappy": sarama.CompressionSnappy, "lz4": sarama.CompressionLZ4, "zstd": sarama.CompressionZSTD}[os.Args[3]]
	if !isKnown {
		log.Fatal(os.Args[3], " is no codec")
	}
	config.Producer.Compression = codec
	if os.Args[4] == "idempotent" {
		config.Producer.Idempotent = true
		config.Producer.RequiredAcks = sarama.WaitForAll
		config.Producer.Retry.Max = 1
		config.Net.MaxOpenRequests = 1
	}
	producer, err := sarama.NewSyncProducer([]string{os.Args[1]}, config)
	if err != nil {
		log.Fatal(err)
	}
	defer producer.Close()
	messages := three()
	if len(os.Args) > 5 {
		count, err := strconv.Atoi(os.Args[5])
		if err != nil {
			log.Fatal(err)
		}
		messages = many(count)
	}
	if err := producer.SendMessages(messages); err != nil {
		log.Fatal(err)
	}
}

func three() []*sarama.ProducerMessage {
	value := make([]byte, 200)
	for i := range value {
		value[i] = 'v'
	}
	stamp := time.Unix(1700000000, 0)
	return []*sarama.ProducerMessage{
		{Topic: "t", Key: sarama.StringEncoder("k"), Value: sarama.ByteEncoder(value), Timestamp: stamp},
		{Topic: "t", Value: sarama.StringEncoder("a value"), Timestamp: stamp},
		{Topic: "t", Key: sarama.StringEncoder("a key"), Value: sarama.StringEncoder(""), Timestamp: stamp},
	}
}

// many are records as some_records of kafka_plain_test.py has them.
func many(count int) []*sarama.ProducerMessage {
	messages := make([]*sarama.ProducerMessage, count)
	for k := range messages {
		messages[k] = &sarama.ProducerMessage{Topic: "t", Key: sarama.StringEncoder(fmt.Sprintf("key %d", k%100)),
			Value:     sarama.StringEncoder(strings.Repeat(fmt.Sprintf("value %d ", k), k%10)),
			Headers:   []sarama.RecordHeader{{Key: []byte("of"), Value: []byte(strconv.Itoa(k))}},
			Timestamp: time.Unix(1700000000+int64(k), 0)}
	}
	return messages
}
