import Coin from 0x1
import Art from 0x1

// A shop sells pictures out of its owner's collection, which stays where it is: it has a capability that lends the collection with
// the right to take from it, and one to the vault that gets the payments.
access(all) contract Market {

    // The right to name prices.
    access(all) entitlement Sell

    access(all) event Listing(id: UInt64, price: UFix64, seller: Address?)
    access(all) event Delisting(id: UInt64, seller: Address?)
    access(all) event Sale(id: UInt64, price: UFix64, seller: Address?)

    access(all) let shopPath: StoragePath
    access(all) let publicPath: PublicPath

    access(all) resource Shop {
        access(self) let goods: Capability<auth(Art.Withdraw) &Art.Collection>
        access(self) let till: Capability<&{Coin.Receiver}>
        access(self) var prices: {UInt64: UFix64}

        init(goods: Capability<auth(Art.Withdraw) &Art.Collection>, till: Capability<&{Coin.Receiver}>) {
            pre {
                goods.check(): "no collection is lent"
                till.check(): "no vault is lent"
            }
            self.goods = goods
            self.till = till
            self.prices = {}
        }

        access(Sell) fun list(id: UInt64, price: UFix64) {
            pre { price > 0.0: "a price is above 0" }
            let collection = self.goods.borrow() ?? panic("the collection isn't lent any more")
            assert(collection.borrow(id: id) != nil, message: "the picture isn't in the collection")
            self.prices[id] = price
            emit Listing(id: id, price: price, seller: self.owner?.address)
        }

        access(Sell) fun delist(id: UInt64) {
            pre { self.prices.containsKey(id): "the picture isn't for sale" }
            self.prices.remove(key: id)
            emit Delisting(id: id, seller: self.owner?.address)
        }

        access(all) view fun priceList(): {UInt64: UFix64} {
            return self.prices
        }

        access(all) fun buy(id: UInt64, payment: @Coin.Vault): @Art.Picture {
            pre {
                self.prices.containsKey(id): "the picture isn't for sale"
                payment.balance == self.prices[id]!: "the payment isn't the price"
            }
            post { result.id == id: "another picture came out" }
            let collection = self.goods.borrow() ?? panic("the collection isn't lent any more")
            let till = self.till.borrow() ?? panic("the seller's vault isn't lent any more")
            let price = payment.balance
            self.prices.remove(key: id)
            till.deposit(from: <-payment)
            emit Sale(id: id, price: price, seller: self.owner?.address)
            return <-collection.withdraw(id: id)
        }
    }

    access(all) fun open(
        goods: Capability<auth(Art.Withdraw) &Art.Collection>,
        till: Capability<&{Coin.Receiver}>
    ): @Shop {
        return <-create Shop(goods: goods, till: till)
    }

    init() {
        self.shopPath = /storage/shop
        self.publicPath = /public/shop
    }
}
